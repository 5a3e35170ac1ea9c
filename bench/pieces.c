/*
 * Times checks of one stream over a trace: all at once, and in pieces of 64 KiB over the open trace.
 *
 *     cc -O2 -I include -o pieces bench/pieces.c out/library/libprecopy.a
 *     ./pieces TRACE STREAM RUNS
 *
 * It prints the least processor time of RUNS for each, in milliseconds: at once, opening the trace, in pieces, and in
 * pieces with memory of large pages. A piece begins where the last whole frame ended, so nothing is copied. Memory that
 * is lent is new for each run, as it has to begin as zeros.
 */
#define _GNU_SOURCE
#include "precopy.h"

#include <stdio.h>
#include <stdlib.h>
#include <string.h>
#include <sys/mman.h>
#include <time.h>

#define PIECE ((size_t)1 << 16)

struct bytes {
    uint8_t *at;
    size_t length;
};

static void stop(const char *what) {
    fprintf(stderr, "pieces: %s\n", what);
    exit(1);
}

static double milliseconds(void) {
    struct timespec now;
    clock_gettime(CLOCK_PROCESS_CPUTIME_ID, &now);
    return 1e3 * (double)now.tv_sec + (double)now.tv_nsec / 1e6;
}

static struct bytes read_file(const char *path) {
    FILE *file = fopen(path, "rb");
    if (!file || fseek(file, 0, SEEK_END)) {
        stop(path);
    }
    struct bytes read = {.length = (size_t)ftell(file)};
    rewind(file);
    read.at = malloc(read.length);
    if (!read.at || fread(read.at, 1, read.length, file) != read.length) {
        stop(path);
    }
    fclose(file);
    return read;
}

/* Zeros, in large pages if these are asked for. */
static void *zeros(size_t length, int is_large) {
    void *at = mmap(NULL, length, PROT_READ | PROT_WRITE, MAP_PRIVATE | MAP_ANONYMOUS, -1, 0);
    if (at == MAP_FAILED || madvise(at, length, is_large ? MADV_HUGEPAGE : MADV_NOHUGEPAGE)) {
        stop("no memory");
    }
    return at;
}

static double at_once(struct bytes trace, struct bytes stream, uint32_t writes) {
    double begun = milliseconds();
    struct precopy_finding found;
    uint32_t record;
    if (precopy_check_streams(trace.at, trace.length, writes, stream.at, stream.length, &stream.length, 1, &found,
                              &record)
        != PRECOPY_OK) {
        stop("the stream is wrong");
    }
    return milliseconds() - begun;
}

static double opening(struct bytes trace, uint32_t *words, struct precopy_trace *opened) {
    double begun = milliseconds();
    size_t needed;
    uint32_t record;
    if (precopy_trace_open(trace.at, trace.length, words, PRECOPY_WORDS_BOUND(trace.length), opened, &needed, &record)
        != PRECOPY_OK) {
        stop("the trace is refused");
    }
    return milliseconds() - begun;
}

static double in_pieces(const struct precopy_trace *trace, struct bytes stream, int is_large) {
    double begun = milliseconds();
    size_t pages = trace->sizes.pages, size = pages << trace->sizes.shift;
    uint32_t *last = zeros(4 * pages, 0), *greatest = zeros(4 * pages, 0);
    uint8_t *memory = zeros(size, is_large);
    struct precopy_progress progress = {.stop = trace->sizes.writes};
    struct precopy_finding found;
    for (size_t end = 0; end < stream.length;) {
        end = stream.length - progress.bytes < PIECE ? stream.length : progress.bytes + PIECE;
        if (precopy_trace_check_piece(trace, stream.at + progress.bytes, end - progress.bytes, &progress, last, pages,
                                      greatest, pages, memory, size, &found)
            != PRECOPY_OK) {
            stop("a piece is wrong");
        }
    }
    if (precopy_end_stream(&progress, stream.length - progress.bytes, &found) != PRECOPY_OK
        || precopy_trace_check_pages(trace, &progress, greatest, pages, &found) != PRECOPY_OK) {
        stop("the end is wrong");
    }
    munmap(last, 4 * pages);
    munmap(greatest, 4 * pages);
    munmap(memory, size);
    return milliseconds() - begun;
}

int main(int argc, char **argv) {
    if (argc != 4) {
        fprintf(stderr, "usage: pieces TRACE STREAM RUNS\n");
        return 2;
    }
    struct bytes trace = read_file(argv[1]), stream = read_file(argv[2]);
    uint32_t *words = malloc(sizeof(*words) * PRECOPY_WORDS_BOUND(trace.length));
    struct precopy_trace opened;
    double least[4];
    int runs = atoi(argv[3]);
    if (!words || runs < 1) {
        stop("no memory, or no run");
    }
    for (int run = 0; run < runs; run++) {
        double open = opening(trace, words, &opened), once = at_once(trace, stream, opened.sizes.writes);
        double took[4] = {once, open, in_pieces(&opened, stream, 0), in_pieces(&opened, stream, 1)};
        for (int at = 0; at < 4; at++) {
            least[at] = run && least[at] < took[at] ? least[at] : took[at];
        }
    }
    printf("%.1f %.1f %.1f %.1f\n", least[0], least[1], least[2], least[3]);
    return 0;
}
