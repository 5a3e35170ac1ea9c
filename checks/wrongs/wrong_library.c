/* A wrong library round the right one. checks/wrongs compiles it with -DWRONG for each of the wrongs below, which
 * stands for one call, and gives the call of the right library the name right_CALL.
 */
#include "precopy.h"

#include <stdlib.h>
#include <string.h>

#define READS_BEHIND 1   /* trace_check_pages: a byte behind the words is read */
#define READS_BEFORE 2   /* trace_check_piece: a byte in front of the progress is read */
#define WRITES_BEHIND 3  /* trace_predict: a word behind the standard errors is written */
#define WRITES_BEFORE 4  /* trace_page_writes: a byte in front of the writes is written */
#define WRITES_INPUT 5   /* trace_check_pages: the progress, which it only reads, is written */
#define KEEPS_MEMORY 6   /* plan: memory is not given back */
#define WRITES_REFUSED 7 /* trace_sweep: the best case is written if a case is refused */
#define ALL_RIGHT 8      /* check_streams: nothing is ever wrong */
#define ONE_MORE 9       /* plan: the downtime is a tick longer */
#define COUNTED_ON 10    /* report: another digit behind OLD */
#define NEXT_BEST 11     /* trace_sweep: the best case has a number that is greater by one */
#define WRITES_INDEX 12  /* trace_rounds: a word of the index, which it only reads, is written */
#define KEEPS_OPEN 13    /* trace_plan: memory is not given back */
#define ONE_MORE_OPEN 14 /* trace_plan: the downtime is a tick longer */

static inline void touch(const void *at) { (void)*(const volatile uint8_t *)at; }

#if WRONG == READS_BEHIND || WRONG == WRITES_INPUT
__typeof__(precopy_trace_check_pages) right_trace_check_pages;

uint32_t precopy_trace_check_pages(const struct precopy_trace *trace, const struct precopy_progress *progress,
                                   const uint32_t *greatest, size_t greatest_length, struct precopy_finding *found) {
    if (WRONG == READS_BEHIND) {
        touch(greatest + greatest_length);
    } else {
        ((volatile struct precopy_progress *)progress)->stop = progress->stop;
    }
    return right_trace_check_pages(trace, progress, greatest, greatest_length, found);
}
#endif

#if WRONG == READS_BEFORE
__typeof__(precopy_trace_check_piece) right_trace_check_piece;

uint32_t precopy_trace_check_piece(const struct precopy_trace *trace, const uint8_t *piece, size_t piece_length,
                                   struct precopy_progress *progress, uint32_t *last, size_t last_length,
                                   uint32_t *greatest, size_t greatest_length, uint8_t *memory, size_t memory_length,
                                   struct precopy_finding *found) {
    touch((const uint8_t *)progress - 1);
    return right_trace_check_piece(trace, piece, piece_length, progress, last, last_length, greatest, greatest_length,
                                   memory, memory_length, found);
}
#endif

#if WRONG == WRITES_BEHIND
__typeof__(precopy_trace_predict) right_trace_predict;

uint32_t precopy_trace_predict(const struct precopy_trace *trace, const struct precopy_question *question,
                               struct precopy_prediction *prediction, struct precopy_errors *errors) {
    *(volatile uint32_t *)(errors + 1) = 0;
    return right_trace_predict(trace, question, prediction, errors);
}
#endif

#if WRONG == WRITES_BEFORE
__typeof__(precopy_trace_page_writes) right_trace_page_writes;

uint32_t precopy_trace_page_writes(const struct precopy_trace *trace, uint32_t page, struct precopy_write *writes,
                                   size_t writes_length, size_t *count) {
    if (writes_length) {
        ((volatile uint8_t *)writes)[-1] = 0;
    }
    return right_trace_page_writes(trace, page, writes, writes_length, count);
}
#endif

#if WRONG == KEEPS_MEMORY || WRONG == ONE_MORE || WRONG == KEEPS_OPEN || WRONG == ONE_MORE_OPEN
/* The status of a plan that was made with some sums. */
static uint32_t planned(uint32_t status, struct precopy_sums *sums) {
    static void *volatile kept;
    if (status == PRECOPY_OK && (WRONG == KEEPS_MEMORY || WRONG == KEEPS_OPEN)) {
        kept = malloc(1);
        status = kept ? status : PRECOPY_NO_MEMORY;
    }
    if (status == PRECOPY_OK && (WRONG == ONE_MORE || WRONG == ONE_MORE_OPEN)) {
        sums->down++;
    }
    return status;
}
#endif

#if WRONG == KEEPS_MEMORY || WRONG == ONE_MORE
__typeof__(precopy_plan) right_plan;

uint32_t precopy_plan(const uint8_t *trace, size_t trace_length, const struct precopy_settings *settings,
                      struct precopy_sums *sums, uint32_t *record) {
    return planned(right_plan(trace, trace_length, settings, sums, record), sums);
}
#endif

#if WRONG == KEEPS_OPEN || WRONG == ONE_MORE_OPEN
__typeof__(precopy_trace_plan) right_trace_plan;

uint32_t precopy_trace_plan(const struct precopy_trace *trace, const struct precopy_settings *settings,
                            struct precopy_sums *sums) {
    return planned(right_trace_plan(trace, settings, sums), sums);
}
#endif

#if WRONG == WRITES_INDEX
__typeof__(precopy_trace_rounds) right_trace_rounds;

uint32_t precopy_trace_rounds(const struct precopy_trace *trace, const struct precopy_settings *settings,
                              struct precopy_round *rounds, size_t rounds_length, size_t *count) {
    volatile uint32_t *last = (volatile uint32_t *)trace->words + trace->words_length - 1;
    *last = *last;
    return right_trace_rounds(trace, settings, rounds, rounds_length, count);
}
#endif

#if WRONG == COUNTED_ON
__typeof__(precopy_report) right_report;

uint32_t precopy_report(const uint8_t *trace, size_t trace_length, const struct precopy_settings *settings,
                        uint8_t *text, size_t text_length, size_t *needed, uint32_t *record) {
    uint32_t status = right_report(trace, trace_length, settings, text, text_length, needed, record);
    size_t old = strlen(OLD);
    for (size_t at = 0; status == PRECOPY_OK && at + old < *needed; at++) {
        if (!memcmp(text + at, OLD, old)) {
            text[at + old] = text[at + old] == '9' ? '8' : text[at + old] + 1;
            break;
        }
    }
    return status;
}
#endif

#if WRONG == WRITES_REFUSED || WRONG == NEXT_BEST
__typeof__(precopy_trace_sweep) right_trace_sweep;

uint32_t precopy_trace_sweep(const struct precopy_trace *trace, const struct precopy_settings *cases,
                             size_t cases_length, struct precopy_sums *sums, size_t sums_length, size_t *best) {
    uint32_t status = right_trace_sweep(trace, cases, cases_length, sums, sums_length, best);
    if (status != PRECOPY_OK && WRONG == WRITES_REFUSED) {
        *best = 0;
    }
    if (status == PRECOPY_OK && cases_length && WRONG == NEXT_BEST) {
        *best += 1;
    }
    return status;
}
#endif

#if WRONG == ALL_RIGHT
uint32_t precopy_check_streams(const uint8_t *trace, size_t trace_length, uint32_t stop, const uint8_t *bytes,
                               size_t bytes_length, const size_t *sizes, size_t sizes_length,
                               struct precopy_finding *found, uint32_t *record) {
    (void)stop, (void)bytes, (void)bytes_length, (void)sizes, (void)sizes_length, (void)found;
    struct precopy_sizes of_trace;
    return precopy_check_trace(trace, trace_length, &of_trace, record);
}
#endif
