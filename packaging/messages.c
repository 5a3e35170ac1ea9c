/*
 * What the library for C says in words: a line for each status, sentences about what is refused or wrong, and its
 * version. And the number of its interface.
 */
#include "precopy.h"

#include <inttypes.h>
#include <stdio.h>
#include <string.h>

#ifndef PRECOPY_VERSION
#error "PRECOPY_VERSION is the version of precopy_tools/version.py: packaging/library.py gives it"
#endif

const char *precopy_version(void) { return PRECOPY_VERSION; }

uint32_t precopy_abi(void) { return PRECOPY_ABI; }

const char *precopy_strerror(uint32_t status) {
    switch (status) {
#include "status_texts.h"
    default:
        return "no status of this library";
    }
}

/* Copies a text of this length to the front of a buffer, if there is room for it. */
static uint32_t told(const char *sentence, int length, uint8_t *text, size_t text_length, size_t *needed) {
    *needed = (size_t)length;
    if (text_length < *needed) {
        return PRECOPY_SHORT_BUFFER;
    }
    memcpy(text, sentence, *needed);
    return PRECOPY_OK;
}

uint32_t precopy_refusal_text(uint32_t cause, uint32_t record, uint8_t *text, size_t text_length, size_t *needed) {
    char sentence[PRECOPY_TEXT_BOUND];
    const char *line = precopy_strerror(cause);
    int has_record = cause >= PRECOPY_SHORT_RECORD && cause <= PRECOPY_OUT_OF_PAGE;
    int length = has_record ? snprintf(sentence, sizeof sentence, "%s (record %" PRIu32 ")", line, record)
                            : snprintf(sentence, sizeof sentence, "%s", line);
    return told(sentence, length, text, text_length, needed);
}

uint32_t precopy_finding_text(uint32_t status, const struct precopy_finding *found, uint8_t *text, size_t text_length,
                              size_t *needed) {
    char sentence[PRECOPY_TEXT_BOUND], lacks[64] = "";
    const char *line = precopy_strerror(status);
    int length;
    if (status >= PRECOPY_FRAME_SHORT && status <= PRECOPY_FRAME_ZEROS) {
        length = snprintf(sentence, sizeof sentence, "stream %zu, frame %zu, byte %zu: %s", found->stream, found->frame,
                          found->offset, line);
    } else if (status >= PRECOPY_NO_VERSION && status <= PRECOPY_OTHER_BYTES) {
        length = snprintf(sentence, sizeof sentence,
                          "stream %zu, frame %zu, byte %zu: page %" PRIu32 " at %" PRIu32 " for %" PRIu32 ", %s",
                          found->stream, found->frame, found->offset, found->page, found->stamp, found->wanted, line);
    } else if (status == PRECOPY_PAGE_BEHIND || status == PRECOPY_PAGE_MISSING) {
        if (found->missing) {
            snprintf(lacks, sizeof lacks, "; it lacks write %" PRIu32 ", at tick %" PRIu64, found->missing,
                     found->tick);
        }
        length =
            snprintf(sentence, sizeof sentence, "at the stop: page %" PRIu32 " at %" PRIu32 " for %" PRIu32 ", %s%s",
                     found->page, found->stamp, found->wanted, line, lacks);
    } else {
        length = snprintf(sentence, sizeof sentence, "%s", line);
    }
    return told(sentence, length, text, text_length, needed);
}
