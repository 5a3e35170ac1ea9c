/*
 * Reads a trace from standard input, and prints the rounds of its plan and their sums, as `precopy report` does. It
 * opens the trace once, and asks for both.
 *
 *     cc -I include -o plan examples/c/plan.c out/library/libprecopy.a
 *     ./plan 500 4000 10 < examples/gzip.pcwt
 *
 * The arguments are the least rate, the greatest rate and the threshold.
 */
#include "precopy.h"

#include <inttypes.h>
#include <stdio.h>
#include <stdlib.h>

/* A plan has no more rounds than its settings ask for, which is at most 64. */
#define MOST_ROUNDS 64

/* Reads a file to its end. *length is how many bytes it has. Returns null if memory runs out or a read fails. */
static uint8_t *read_all(FILE *file, size_t *length) {
    size_t room = 1 << 16;
    uint8_t *bytes = malloc(room);
    *length = 0;
    while (bytes) {
        *length += fread(bytes + *length, 1, room - *length, file);
        if (*length < room) {
            break;
        }
        room *= 2;
        uint8_t *more = realloc(bytes, room);
        if (!more) {
            free(bytes);
        }
        bytes = more;
    }
    if (bytes && ferror(file)) {
        free(bytes);
        return NULL;
    }
    return bytes;
}

static void print_plan(const struct precopy_round *rounds, size_t count, const struct precopy_sums *sums) {
    static const char *const reasons[] = {"few", "fast", "rounds"};
    for (size_t i = 0; i < count; i++) {
        const struct precopy_round *it = &rounds[i];
        printf("round %zu from %" PRIu64 " to %" PRIu64 " rate %" PRIu64, i, it->from, it->to, it->rate);
        printf(" pages %" PRIu64 " sent %" PRIu64 " dirtied %" PRIu64 "\n", it->pages, it->sent, it->dirtied);
    }
    /* What the last round leaves dirty goes after the stop. */
    printf("stop %s at %" PRIu64 " pages %" PRIu64, reasons[sums->reason], sums->stop, rounds[count - 1].dirtied);
    printf(" down %" PRIu64 " total %" PRIu64 "\n", sums->down, sums->total);
}

/* Opens a trace and prints its plan. Returns the library's status, and sets *record if a record is refused. */
static uint32_t tell(const uint8_t *bytes, size_t length, const struct precopy_settings *settings, uint32_t *record) {
    size_t needed, count = 0, most = PRECOPY_WORDS_BOUND(length);
    uint32_t *words = malloc(most * sizeof(*words));
    if (!words) {
        return PRECOPY_NO_MEMORY;
    }
    struct precopy_trace trace;
    struct precopy_round rounds[MOST_ROUNDS];
    struct precopy_sums sums;
    uint32_t status = precopy_trace_open(bytes, length, words, most, &trace, &needed, record);
    if (status == PRECOPY_OK) {
        status = precopy_trace_plan(&trace, settings, &sums);
    }
    if (status == PRECOPY_OK) {
        status = precopy_trace_rounds(&trace, settings, rounds, MOST_ROUNDS, &count);
    }
    if (status == PRECOPY_OK) {
        print_plan(rounds, count, &sums);
    }
    free(words);
    return status;
}

int main(int argc, char **argv) {
    struct precopy_settings settings = PRECOPY_SETTINGS_DEFAULT;
    if (argc != 4) {
        fprintf(stderr, "usage: plan MIN MAX THRESHOLD < trace\n");
        return 2;
    }
    settings.min = strtoull(argv[1], NULL, 10);
    settings.max = strtoull(argv[2], NULL, 10);
    settings.threshold = strtoull(argv[3], NULL, 10);

    size_t length;
    uint8_t *bytes = read_all(stdin, &length);
    if (!bytes) {
        fprintf(stderr, "plan: standard input cannot be read\n");
        return 1;
    }
    uint32_t record = UINT32_MAX, status = tell(bytes, length, &settings, &record);
    free(bytes);
    if (status != PRECOPY_OK) {
        fprintf(stderr, "plan: %s", precopy_strerror(status));
        if (record != UINT32_MAX) {
            fprintf(stderr, ", record %" PRIu32, record);
        }
        fprintf(stderr, "\n");
        return 1;
    }
    return 0;
}
