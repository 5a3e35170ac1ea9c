/* A workload for tools/compare-qemu: a store of values in memory, with a log of its updates and a sweep.

       store MIB UPDATES

   MIB of values of 256 bytes are filled first, and a log of 64 MiB. Then it prints READY, and makes UPDATES a second,
   of some values much more often than of others; each is appended to the log, which begins anew when it is full. Every
   10 seconds a sweep marks a value on each sixteenth page.

   cc -O2 -static -o store examples/guests/store.c
   tools/compare-qemu --memory 2G --bandwidth 128MiB --downtime 300ms --workload examples/guests/store.sh --add store */

#include <stdint.h>
#include <stdio.h>
#include <stdlib.h>
#include <string.h>
#include <time.h>

enum { PAGE = 4096, VALUE = 256, CHANGED = 200, LOG = 64 << 20, ENTRY = 64, SWEPT = 16, STEP_MS = 10 };
enum { SWEEP_MS = 10000 };

static uint64_t state = 66;

static uint64_t draw(void) {
    state ^= state << 13;
    state ^= state >> 7;
    state ^= state << 17;
    return state;
}

static int64_t milliseconds(void) {
    struct timespec now;
    clock_gettime(CLOCK_MONOTONIC, &now);
    return now.tv_sec * 1000LL + now.tv_nsec / 1000000;
}

/* The place of a value: of the cube of a number from 0 to 1 small ones are frequent. They are all over the memory. */
static size_t place(size_t values) {
    double part = (double)(draw() >> 11) / (1ULL << 53);
    return (size_t)(part * part * part * (double)values) * 2654435761U % values;
}

int main(int count, char **words) {
    size_t bytes = count == 3 ? strtoul(words[1], NULL, 10) << 20 : 0, updates = count == 3 ? atol(words[2]) : 0;
    char *values = bytes ? malloc(bytes) : NULL, *log = malloc(LOG);
    if (!values || !log || !updates) {
        fprintf(stderr, "usage: store MIB UPDATES, both from 1, with memory for them\n");
        return 2;
    }
    for (size_t at = 0; at < bytes; at += 8) memcpy(values + at, &(uint64_t){draw()}, 8);
    memset(log, 1, LOG);
    printf("READY\n");
    fflush(stdout);
    size_t logged = 0;
    for (int64_t due = milliseconds(), swept = due;; due += STEP_MS) {
        for (size_t n = 0; n < updates * STEP_MS / 1000; n++) {
            memset(values + place(bytes / VALUE) * VALUE, (int)draw(), CHANGED);
            memset(log + logged, (int)draw(), ENTRY);
            logged = (logged + ENTRY) % LOG;
        }
        if (due - swept >= SWEEP_MS) {
            for (size_t at = 0; at < bytes; at += SWEPT * PAGE) values[at + VALUE - 1]++;
            swept = due;
        }
        int64_t late = milliseconds() - due - STEP_MS;
        if (late < 0)
            nanosleep(&(struct timespec){.tv_nsec = -late * 1000000}, NULL);
        else if (late > 100)
            due += late; /* what it could not do is not made up for */
    }
}
