/*
 * Reads a trace from standard input, and prints the pages that a copy of the memory before a tick lacks: at which
 * version the copy has each of them, and at which the guest has it after all writes.
 *
 *     cc -I include -o lacking examples/c/lacking.c out/library/libprecopy.a
 *     ./lacking 2000 < examples/gzip.pcwt
 *
 * The trace is opened once, and both answers come from its index.
 */
#include "precopy.h"

#include <inttypes.h>
#include <stdio.h>
#include <stdlib.h>

/* The most bytes of a trace. */
#define MOST_BYTES ((size_t)1 << 28)

/* Reads standard input to its end, into at most one byte more than a trace may have. Returns null if that fails. */
static uint8_t *read_trace(size_t *length) {
    uint8_t *bytes = malloc(MOST_BYTES + 1);
    *length = bytes ? fread(bytes, 1, MOST_BYTES + 1, stdin) : 0;
    if (bytes && ferror(stdin)) {
        free(bytes);
        return NULL;
    }
    return bytes;
}

/* Prints the pages whose version before a tick is not the last one. `versions` has room for both of each page. */
static void print_lacking(const struct precopy_trace *trace, uint64_t tick, uint32_t *versions) {
    size_t needed, pages = trace->sizes.pages;
    uint32_t *before = versions, *last = versions + pages;
    if (precopy_trace_versions_before(trace, tick, before, pages, &needed) != PRECOPY_OK
        || precopy_trace_versions_after(trace, trace->sizes.writes, last, pages, &needed) != PRECOPY_OK) {
        return;
    }
    for (size_t page = 0; page < pages; page++) {
        if (before[page] != last[page]) {
            printf("page %zu at %" PRIu32 " of %" PRIu32 "\n", page, before[page], last[page]);
        }
    }
}

/* Opens a trace and prints what a copy lacks. Returns the library's status. */
static uint32_t tell(const uint8_t *bytes, size_t length, uint64_t tick) {
    size_t needed, most = PRECOPY_WORDS_BOUND(length);
    uint32_t record = UINT32_MAX, *words = malloc(most * sizeof(*words));
    if (!words) {
        return PRECOPY_NO_MEMORY;
    }
    struct precopy_trace trace;
    uint32_t status = precopy_trace_open(bytes, length, words, most, &trace, &needed, &record);
    if (status == PRECOPY_OK) {
        uint32_t *versions = malloc(2 * trace.sizes.pages * sizeof(*versions));
        if (versions) {
            print_lacking(&trace, tick, versions);
        } else {
            status = PRECOPY_NO_MEMORY;
        }
        free(versions);
    }
    free(words);
    return status;
}

int main(int argc, char **argv) {
    if (argc != 2) {
        fprintf(stderr, "usage: lacking TICK < trace\n");
        return 2;
    }
    size_t length;
    uint8_t *bytes = read_trace(&length);
    uint32_t status = bytes ? tell(bytes, length, strtoull(argv[1], NULL, 10)) : PRECOPY_NO_MEMORY;
    free(bytes);
    if (status != PRECOPY_OK) {
        fprintf(stderr, "lacking: %s\n", precopy_strerror(status));
        return 1;
    }
    return 0;
}
