/* Dirties memory at a known rate, in a guest whose migration is compared with a plan.

       guest-writer HOT HOT_RATE COLD COLD_RATE [same]

   HOT pages are written in a random order at HOT_RATE pages a second, and COLD pages one after the other at COLD_RATE.
   Each write changes 64 bytes of its page; with "same" it writes the bytes that are there. All pages are filled
   first, with other bytes each. Then it prints READY. If it did not run for a time, it makes up at most 0.1 s.

   cc -O2 -static -o guest-writer guest-writer.c */

#include <errno.h>
#include <stdint.h>
#include <stdio.h>
#include <stdlib.h>
#include <string.h>
#include <sys/mman.h>
#include <time.h>

enum { PAGE = 4096, WORDS = PAGE / 8, CHANGED = 8, STEP_MS = 10, STEPS = 1000 / STEP_MS, MOST_BEHIND = 10 };

static uint64_t state = 2005;

static uint64_t draw(void) {
    state ^= state << 13;
    state ^= state >> 7;
    state ^= state << 17;
    return state;
}

static void dirty(volatile uint64_t *page, uint64_t value, int same) {
    for (int i = 0; i < CHANGED; i++) page[i] = same ? page[i] : value + i;
}

static size_t number(const char *word) {
    char *end;
    errno = 0;
    unsigned long value = strtoul(word, &end, 10);
    if (errno || *end || end == word || value > 100000000) {
        fprintf(stderr, "guest-writer: %s is no number up to 100000000\n", word);
        exit(2);
    }
    return value;
}

static int64_t milliseconds(void) {
    struct timespec now;
    clock_gettime(CLOCK_MONOTONIC, &now);
    return now.tv_sec * 1000LL + now.tv_nsec / 1000000;
}

int main(int count, char **words) {
    if (count != 5 && !(count == 6 && !strcmp(words[5], "same"))) {
        fprintf(stderr, "usage: guest-writer HOT HOT_RATE COLD COLD_RATE [same]\n");
        return 2;
    }
    size_t hot = number(words[1]), hot_rate = number(words[2]), cold = number(words[3]), cold_rate = number(words[4]);
    size_t pages = hot + cold ? hot + cold : 1;
    uint64_t *memory = mmap(NULL, pages * PAGE, PROT_READ | PROT_WRITE, MAP_PRIVATE | MAP_ANONYMOUS, -1, 0);
    if (memory == MAP_FAILED) {
        perror("guest-writer");
        return 1;
    }
    for (size_t i = 0; i < pages * WORDS; i++) memory[i] = draw();
    printf("READY\n");
    fflush(stdout);

    uint64_t step = 0, writes = 0, next = 0;
    int64_t due = milliseconds();
    for (;;) {
        /* The rates need not be multiples of the steps in a second: each step makes up to its part of the whole. */
        size_t hot_writes = hot ? (step + 1) * hot_rate / STEPS - step * hot_rate / STEPS : 0;
        size_t cold_writes = cold ? (step + 1) * cold_rate / STEPS - step * cold_rate / STEPS : 0;
        for (size_t i = 0; i < hot_writes; i++) dirty(memory + draw() % hot * WORDS, ++writes << 8, count == 6);
        for (size_t i = 0; i < cold_writes; i++)
            dirty(memory + (hot + next++ % cold) * WORDS, ++writes << 8, count == 6);
        step++;
        due += STEP_MS;
        int64_t now = milliseconds();
        if (now < due) {
            struct timespec rest = {0, (due - now) * 1000000};
            nanosleep(&rest, NULL);
        } else if (now - due > MOST_BEHIND * STEP_MS) {
            due = now;
        }
    }
}
