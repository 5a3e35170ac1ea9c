/*
 * Worked examples of the calls of the library for C that check pages without stamps, begin with a base, and compare
 * memory. Their values were worked out by hand.
 */
#include "row.h"
#include "precopy.h"

#include <string.h>

/* 2 pages of 16 bytes, 6 writes: of the first byte of page 0 to 1, 2, 1 and 1 at ticks 0, 3, 3 and 9; page 1 is
 * released at tick 7, and its last byte is 5 from tick 9 on. Before each record is its place. */
static const uint8_t trace[117] = {
    'P',       'C', 'W', 'T', 2, 4, 0, 0, 2, 0, 0, 0, 6,  0, 0, 0,
    /* 1 */ 0, 0,   0,   0,   0, 0, 0, 0, 0, 0, 0, 0, 0,  0, 1, 0, 1,
    /* 2 */ 3, 0,   0,   0,   0, 0, 0, 0, 0, 0, 0, 0, 0,  0, 1, 0, 2,
    /* 3 */ 3, 0,   0,   0,   0, 0, 0, 0, 0, 0, 0, 0, 0,  0, 1, 0, 1,
    /* 4 */ 7, 0,   0,   0,   0, 0, 0, 0, 1, 0, 0, 0, 0,  0, 0, 0,
    /* 5 */ 9, 0,   0,   0,   0, 0, 0, 0, 0, 0, 0, 0, 0,  0, 1, 0, 1,
    /* 6 */ 9, 0,   0,   0,   0, 0, 0, 0, 1, 0, 0, 0, 15, 0, 1, 0, 5,
};
static const uint8_t zeros[32], one[16] = {1}, two[16] = {2};
static const uint8_t five[17] = {0, 0, 0, 0, 0, 0, 0, 0, 0, 0, 0, 0, 0, 0, 0, 5};

static struct precopy_trace held;
static uint32_t words[20], greatest[3];
static uint8_t memory[33];

static void open_trace(void) {
    uint32_t record = 9;
    size_t needed = 0;
    ROW(precopy_trace_open(trace, sizeof trace, words, 20, &held, &needed, &record) == PRECOPY_OK && needed == 20);
}

/* Whether the words and the first byte of each page are these, and the last byte of page 1. */
static int are(uint32_t first, uint32_t second, uint8_t of_first, uint8_t of_second, uint8_t last) {
    return greatest[0] == first && greatest[1] == second && greatest[2] == 9 && memory[0] == of_first
           && memory[16] == of_second && memory[31] == last && memory[32] == 9;
}

static void clear(void) {
    memset(greatest, 0, 2 * sizeof *greatest);
    memset(memory, 0, 32);
    greatest[2] = memory[32] = 9;
}

static void bases(void) {
    static const struct {
        uint64_t tick;
        uint32_t first, second;
        uint8_t of_first, last;
    } rows[] = {{0, 1, 1, 0, 0}, {3, 2, 1, 1, 0}, {7, 4, 1, 1, 0}, {9, 4, 5, 1, 0}, {10, 6, 7, 1, 5}};
    for (size_t at = 0; at < sizeof rows / sizeof *rows; at++) {
        clear();
        memset(greatest, 7, 2 * sizeof *greatest);
        memset(memory, 7, 32);
        ROW(precopy_trace_check_base(&held, rows[at].tick, greatest, 2, memory, 32) == PRECOPY_OK);
        ROW(are(rows[at].first, rows[at].second, rows[at].of_first, 0, rows[at].last));
        ROW(precopy_is_zero(memory + 1, 30));
    }
    ROW(precopy_trace_check_base(&held, UINT64_MAX, greatest, 2, memory, 32) == PRECOPY_OK && are(6, 7, 1, 0, 5));
    ROW(precopy_trace_check_base(&held, 0, greatest, 1, memory, 31) == PRECOPY_MEMORY_LENGTH);
    ROW(precopy_trace_check_base(&held, 0, greatest, 1, memory, 33) == PRECOPY_MEMORY_LENGTH);
    ROW(precopy_trace_check_base(&held, 0, greatest, 1, memory, 32) == PRECOPY_PAGE_COUNT);
    ROW(precopy_trace_check_base(&held, 0, greatest, 3, memory, 32) == PRECOPY_PAGE_COUNT);
    ROW(are(6, 7, 1, 0, 5));
}

static uint32_t taken(uint32_t stop, uint32_t page, const uint8_t *content) {
    return precopy_trace_check_bytes(&held, stop, page, content, 16, greatest, 2, memory, 32);
}

/* The least version that fits is taken: page 0 has the same bytes at versions 1, 3 and 5. */
static void unstamped_pages(void) {
    clear();
    ROW(taken(6, 0, one) == PRECOPY_OK && are(2, 0, 1, 0, 0));
    ROW(taken(6, 0, one) == PRECOPY_OK && are(2, 0, 1, 0, 0));
    ROW(taken(6, 0, zeros) == PRECOPY_OTHER_BYTES && are(2, 0, 1, 0, 0));
    ROW(taken(6, 0, two) == PRECOPY_OK && are(3, 0, 2, 0, 0));
    ROW(taken(2, 0, one) == PRECOPY_OTHER_BYTES && are(3, 0, 2, 0, 0));
    ROW(taken(6, 0, one) == PRECOPY_OK && are(4, 0, 1, 0, 0));
    ROW(taken(6, 0, two) == PRECOPY_OTHER_BYTES && are(4, 0, 1, 0, 0));
    ROW(taken(2, 0, one) == PRECOPY_OTHER_BYTES && are(4, 0, 1, 0, 0));
    ROW(taken(5, 1, five) == PRECOPY_OTHER_BYTES && are(4, 0, 1, 0, 0));
    ROW(taken(0, 1, zeros) == PRECOPY_OK && are(4, 1, 1, 0, 0));
    ROW(taken(UINT32_MAX, 1, five) == PRECOPY_OK && are(4, 7, 1, 0, 5));
    ROW(taken(UINT32_MAX, 1, zeros) == PRECOPY_OTHER_BYTES && are(4, 7, 1, 0, 5));
    /* From a base on which page 1 was released. */
    clear();
    ROW(precopy_trace_check_base(&held, 9, greatest, 2, memory, 32) == PRECOPY_OK && are(4, 5, 1, 0, 0));
    ROW(taken(6, 1, zeros) == PRECOPY_OK && are(4, 5, 1, 0, 0));
    ROW(taken(6, 0, one) == PRECOPY_OK && are(4, 5, 1, 0, 0));
}

static void sizes_of_pages(void) {
    clear();
    ROW(precopy_trace_check_bytes(&held, 6, 2, one, 15, greatest, 1, memory, 31) == PRECOPY_MEMORY_LENGTH);
    ROW(precopy_trace_check_bytes(&held, 6, 2, one, 15, greatest, 1, memory, 33) == PRECOPY_MEMORY_LENGTH);
    ROW(precopy_trace_check_bytes(&held, 6, 2, one, 15, greatest, 1, memory, 32) == PRECOPY_PAGE_COUNT);
    ROW(precopy_trace_check_bytes(&held, 6, 2, one, 15, greatest, 3, memory, 32) == PRECOPY_PAGE_COUNT);
    ROW(precopy_trace_check_bytes(&held, 6, 2, one, 15, greatest, 2, memory, 32) == PRECOPY_NO_PAGE);
    ROW(precopy_trace_check_bytes(&held, 6, UINT32_MAX, one, 15, greatest, 2, memory, 32) == PRECOPY_NO_PAGE);
    ROW(precopy_trace_check_bytes(&held, 6, 1, one, 15, greatest, 2, memory, 32) == PRECOPY_PAGE_LENGTH);
    ROW(precopy_trace_check_bytes(&held, 6, 1, five, 17, greatest, 2, memory, 32) == PRECOPY_PAGE_LENGTH);
    ROW(are(0, 0, 0, 0, 0));
}

static struct precopy_finding found;

static uint32_t differs(uint32_t count) {
    uint8_t room[16];
    memset(room, 7, sizeof room);
    memset(&found, 9, sizeof found);
    return precopy_trace_differs(&held, count, memory, 32, room, 16, &found);
}

static int is_found(size_t offset, uint32_t page, uint32_t wanted, uint32_t missing, uint64_t tick) {
    return found.stream == 0 && found.frame == 0 && found.offset == offset && found.tick == tick && found.page == page
           && found.stamp == 0 && found.wanted == wanted && found.missing == missing;
}

static void differences(void) {
    struct precopy_finding before;
    uint8_t room[17];
    memset(&before, 9, sizeof before);
    clear();
    ROW(differs(0) == PRECOPY_OK && !memcmp(&found, &before, sizeof found));
    ROW(differs(1) == PRECOPY_PAGE_BEHIND && is_found(0, 0, 1, 1, 0));
    ROW(differs(2) == PRECOPY_PAGE_BEHIND && is_found(0, 0, 2, 2, 3));
    ROW(differs(4) == PRECOPY_PAGE_BEHIND && is_found(0, 0, 3, 3, 3));
    memory[0] = 1;
    ROW(differs(0) == PRECOPY_PAGE_BEHIND && is_found(0, 0, 0, 0, 0));
    ROW(differs(1) == PRECOPY_OK && differs(3) == PRECOPY_OK && differs(5) == PRECOPY_OK);
    ROW(differs(6) == PRECOPY_PAGE_BEHIND && is_found(31, 1, 6, 6, 9));
    ROW(differs(UINT32_MAX) == PRECOPY_PAGE_BEHIND && is_found(31, 1, 6, 6, 9));
    memory[31] = 5;
    ROW(differs(6) == PRECOPY_OK && differs(UINT32_MAX) == PRECOPY_OK);
    ROW(differs(4) == PRECOPY_PAGE_BEHIND && is_found(31, 1, 4, 4, 7));
    memory[20] = 1;
    ROW(differs(6) == PRECOPY_PAGE_BEHIND && is_found(20, 1, 6, 4, 7));
    ROW(differs(3) == PRECOPY_PAGE_BEHIND && is_found(20, 1, 0, 0, 0));
    memory[3] = 9;
    ROW(differs(6) == PRECOPY_PAGE_BEHIND && is_found(3, 0, 5, 0, 0));
    found = before;
    ROW(precopy_trace_differs(&held, 6, memory, 31, room, 15, &found) == PRECOPY_MEMORY_LENGTH);
    ROW(precopy_trace_differs(&held, 6, memory, 33, room, 15, &found) == PRECOPY_MEMORY_LENGTH);
    ROW(precopy_trace_differs(&held, 6, memory, 32, room, 15, &found) == PRECOPY_PAGE_LENGTH);
    ROW(precopy_trace_differs(&held, 6, memory, 32, room, 17, &found) == PRECOPY_PAGE_LENGTH);
    ROW(!memcmp(&found, &before, sizeof found));
}

int main(void) {
    open_trace();
    bases();
    unstamped_pages();
    sizes_of_pages();
    differences();
    printf("%d passed, %d failed\n", passed, failed);
    return failed != 0;
}
