/*
 * The calls of the library for C, each over the inputs of a guest and three buffers, for checks/library/library.c.
 */
#include "precopy.h"
#include "rooms.h"

#include <string.h>

struct guest {
    struct room trace, settings, cases, question, starts, sizes, page, stream, streams, lengths, words, greatest;
    struct precopy_trace held; /* the trace, which stays open over the words */
    uint64_t tick;
    uint32_t stamp; /* the last version of page 0 */
};

/* What a call writes: its long buffer, what it reports, and the record for which it refuses a trace. */
struct outputs {
    struct room room, told, record;
};

typedef uint32_t call_of(const struct guest *guest, struct outputs *out);

static uint32_t check_trace(const struct guest *g, struct outputs *out) {
    return precopy_check_trace(g->trace.at, g->trace.length, (void *)out->told.at, (void *)out->record.at);
}

static uint32_t plan(const struct guest *g, struct outputs *out) {
    return precopy_plan(g->trace.at, g->trace.length, (void *)g->settings.at, (void *)out->told.at,
                        (void *)out->record.at);
}

static uint32_t report(const struct guest *g, struct outputs *out) {
    return precopy_report(g->trace.at, g->trace.length, (void *)g->settings.at, out->room.at, out->room.length,
                          (void *)out->told.at, (void *)out->record.at);
}

static uint32_t trace_plan(const struct guest *g, struct outputs *out) {
    return precopy_trace_plan(&g->held, (void *)g->settings.at, (void *)out->told.at);
}

static uint32_t trace_report(const struct guest *g, struct outputs *out) {
    return precopy_trace_report(&g->held, (void *)g->settings.at, out->room.at, out->room.length, (void *)out->told.at);
}

static uint32_t rounds(const struct guest *g, struct outputs *out) {
    return precopy_trace_rounds(&g->held, (void *)g->settings.at, (void *)out->room.at,
                                out->room.length / sizeof(struct precopy_round), (void *)out->told.at);
}

static uint32_t sweep(const struct guest *g, struct outputs *out) {
    return precopy_trace_sweep(&g->held, (void *)g->cases.at, g->cases.length / sizeof(struct precopy_settings),
                               (void *)out->room.at, out->room.length / sizeof(struct precopy_sums),
                               (void *)out->told.at);
}

/* Puts the pattern back behind standard errors that were told, where no part of them is. */
static uint32_t with_pattern(uint32_t status, uint8_t *errors) {
    if (status == PRECOPY_OK) {
        size_t end = offsetof(struct precopy_errors, has_errors) + sizeof(uint32_t);
        memset(errors + end, PATTERN, sizeof(struct precopy_errors) - end);
    }
    return status;
}

/* A prediction, and its standard errors behind it. */
static uint32_t predict(const struct guest *g, struct outputs *out) {
    uint8_t *errors = out->told.at + sizeof(struct precopy_prediction);
    uint32_t status = precopy_trace_predict(&g->held, (void *)g->question.at, (void *)out->told.at, (void *)errors);
    return with_pattern(status, errors);
}

static uint32_t enough(const struct guest *g, struct outputs *out) {
    return precopy_trace_enough(&g->held, (void *)g->question.at, (void *)out->told.at);
}

static uint32_t agreement(const struct guest *g, struct outputs *out) {
    return precopy_trace_agreement(&g->held, (void *)g->question.at, (void *)out->told.at);
}

static uint32_t forecast(const struct guest *g, struct outputs *out) {
    return precopy_trace_forecast(&g->held, (void *)g->question.at, (void *)out->told.at);
}

static uint32_t link_shares(const struct guest *g, struct outputs *out) {
    return precopy_trace_link_shares(&g->held, (void *)g->question.at, (void *)out->told.at);
}

/* From starts at ticks that are few, so that a trial takes no longer than others. */
static uint32_t best_start(const struct guest *g, struct outputs *out) {
    uint8_t *errors = out->told.at + sizeof(struct precopy_best_start);
    uint32_t status = precopy_trace_best_start(&g->held, (void *)g->question.at, (void *)g->starts.at,
                                               (void *)out->told.at, (void *)errors);
    return with_pattern(status, errors);
}

static uint32_t memory(const struct guest *g, struct outputs *out) {
    return precopy_memory(g->trace.at, g->trace.length, out->room.at, out->room.length, (void *)out->told.at,
                          (void *)out->record.at);
}

static uint32_t memory_before(const struct guest *g, struct outputs *out) {
    return precopy_trace_memory_before(&g->held, g->tick, out->room.at, out->room.length, (void *)out->told.at);
}

static uint32_t writes_before(const struct guest *g, struct outputs *out) {
    return precopy_trace_writes_before(&g->held, g->tick, (void *)out->told.at);
}

static uint32_t memory_step(const struct guest *g, struct outputs *out) {
    return precopy_trace_memory_step(&g->held, 0, UINT32_MAX, out->room.at, out->room.length);
}

/* What is written is the index, and what is told how many words it has. */
static uint32_t trace_open(const struct guest *g, struct outputs *out) {
    struct precopy_trace held;
    return precopy_trace_open(g->trace.at, g->trace.length, (void *)out->room.at, out->room.length / sizeof(uint32_t),
                              &held, (void *)out->told.at, (void *)out->record.at);
}

static uint32_t version_after(const struct guest *g, struct outputs *out) {
    return precopy_trace_version_after(&g->held, 0, UINT32_MAX, (void *)out->told.at);
}

static uint32_t versions_after(const struct guest *g, struct outputs *out) {
    return precopy_trace_versions_after(&g->held, UINT32_MAX, (void *)out->room.at, out->room.length / sizeof(uint32_t),
                                        (void *)out->told.at);
}

static uint32_t versions_before(const struct guest *g, struct outputs *out) {
    return precopy_trace_versions_before(&g->held, g->tick, (void *)out->room.at, out->room.length / sizeof(uint32_t),
                                         (void *)out->told.at);
}

static uint32_t page_at(const struct guest *g, struct outputs *out) {
    return precopy_trace_page_at(&g->held, 0, g->stamp, out->room.at, out->room.length);
}

static uint32_t page_writes(const struct guest *g, struct outputs *out) {
    return precopy_trace_page_writes(&g->held, 0, (void *)out->room.at, out->room.length / sizeof(struct precopy_write),
                                     (void *)out->told.at);
}

static uint32_t check_streams(const struct guest *g, struct outputs *out) {
    return precopy_check_streams(g->trace.at, g->trace.length, UINT32_MAX, g->streams.at, g->streams.length,
                                 (void *)g->lengths.at, g->lengths.length / sizeof(size_t), (void *)out->told.at,
                                 (void *)out->record.at);
}

/* The first stream of a guest in one piece. What is told is what is lent: the words of its last stamps, those of the
 * greatest, and the memory. */
static uint32_t check_piece(const struct guest *g, struct outputs *out) {
    struct precopy_progress progress = {0, 0, 0, UINT32_MAX};
    struct precopy_finding found;
    size_t first = *(const size_t *)(const void *)g->lengths.at, pages = g->held.sizes.pages;
    uint32_t *last = (void *)out->told.at, *greatest = last + pages;
    memset(out->told.at, 0, out->told.length);
    return precopy_trace_check_piece(&g->held, g->streams.at, first, &progress, last, pages, greatest, pages,
                                     (void *)(greatest + pages), pages << g->held.sizes.shift, &found);
}

/* The end of the streams, by the words of the greatest stamps that they leave. */
static uint32_t check_pages(const struct guest *g, struct outputs *out) {
    struct precopy_progress progress = {2, 0, 0, UINT32_MAX};
    return precopy_trace_check_pages(&g->held, &progress, (void *)g->greatest.at, g->greatest.length / sizeof(uint32_t),
                                     (void *)out->told.at);
}

static uint32_t encode(const struct guest *g, struct outputs *out) {
    return precopy_encode_frame((void *)g->sizes.at, 0, 0, g->page.at, g->page.length, out->room.at, out->room.length,
                                (void *)out->told.at);
}

static uint32_t decode(const struct guest *g, struct outputs *out) {
    return precopy_decode_frame((void *)g->sizes.at, g->stream.at, g->stream.length, (void *)out->told.at, out->room.at,
                                out->room.length);
}
