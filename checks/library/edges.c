/*
 * Null pointers whose length is 0, and the order of refusals, in each function of the library for C that has them.
 */
#include "row.h"
#include "precopy.h"

#include <string.h>

/* Pages of 16 bytes, 1 page, and a write of a byte at tick 7. */
static const uint8_t trace[33] = {0x50, 0x43, 0x57, 0x54, 1, 4, 0, 0, 1, 0, 0, 0, 1, 0, 0, 0, 7,
                                  0,    0,    0,    0,    0, 0, 0, 0, 0, 0, 0, 0, 0, 1, 0, 5};
static const uint8_t page[16] = {5};
/* The page at stamp 1. */
static const uint8_t frame[25] = {0, 0, 0, 0, 1, 0, 0, 0, 1, 5};
static const struct precopy_settings good = PRECOPY_SETTINGS_DEFAULT;
static const struct precopy_settings bad = {sizeof bad, 1000, 5000, 500, 0, 30, 0, 1000, 2, 0, 0, 0};
static const struct precopy_question asked = {sizeof asked, 16000, 0, 0, 0, 1000, 16, 1, 1, 0, 30, 0, 0, 0, 0, 0, 0, 1};
static const struct precopy_starts all_starts = PRECOPY_STARTS_DEFAULT;
static const struct precopy_sizes sizes = {4, 1, 1}, no_sizes = {4, 0, 1};

static uint32_t record = 9;

/* The trace, which stays open. */
static struct precopy_trace held;
static uint32_t words[4];

static void open_held(void) {
    size_t needed = 9;
    ROW(precopy_trace_open(trace, sizeof trace, words, 4, &held, &needed, &record) == PRECOPY_OK && needed == 4);
}

/* The record of the last refusal, which is then forgotten. */
static uint32_t forget(void) {
    uint32_t told = record;
    record = 9;
    return told;
}

static void nulls_of_traces(void) {
    struct precopy_sizes found;
    struct precopy_sums sums;
    struct precopy_trace opened;
    size_t count = 9;
    ROW(precopy_check_trace(NULL, 0, &found, &record) == PRECOPY_SHORT_HEADER);
    ROW(precopy_plan(NULL, 0, &good, &sums, &record) == PRECOPY_SHORT_HEADER);
    ROW(precopy_report(NULL, 0, &good, NULL, 0, &count, &record) == PRECOPY_SHORT_HEADER && count == 9);
    ROW(precopy_report(trace, sizeof trace, &good, NULL, 0, &count, &record) == PRECOPY_SHORT_BUFFER && count > 100);
    count = 0;
    ROW(precopy_memory(NULL, 0, NULL, 0, &count, &record) == PRECOPY_SHORT_HEADER && count == 0);
    ROW(precopy_memory(trace, sizeof trace, NULL, 0, &count, &record) == PRECOPY_SHORT_BUFFER && count == 16);
    count = 0;
    ROW(precopy_trace_open(NULL, 0, NULL, 0, &opened, &count, &record) == PRECOPY_SHORT_HEADER && count == 0);
    ROW(precopy_trace_open(trace, sizeof trace, NULL, 0, &opened, &count, &record) == PRECOPY_SHORT_BUFFER);
    ROW(count == 4);
}

static void nulls_of_open_traces(void) {
    struct precopy_sums sums;
    size_t count = 9;
    ROW(precopy_trace_versions_after(&held, 1, NULL, 0, &count) == PRECOPY_SHORT_BUFFER && count == 1);
    count = 0;
    ROW(precopy_trace_versions_before(&held, 1, NULL, 0, &count) == PRECOPY_SHORT_BUFFER && count == 1);
    ROW(precopy_trace_memory_before(&held, 1, NULL, 0, &count) == PRECOPY_SHORT_BUFFER && count == 16);
    ROW(precopy_trace_page_at(&held, 0, 1, NULL, 0) == PRECOPY_SHORT_BUFFER);
    ROW(precopy_trace_rounds(&held, &good, NULL, 0, &count) == PRECOPY_SHORT_BUFFER && count == 1);
    ROW(precopy_trace_report(&held, &good, NULL, 0, &count) == PRECOPY_SHORT_BUFFER && count > 100);
    ROW(precopy_trace_sweep(&held, NULL, 0, NULL, 0, &count) == PRECOPY_OK && count == 0);
    count = 9;
    ROW(precopy_trace_sweep(&held, &good, 1, NULL, 0, &count) == PRECOPY_SHORT_BUFFER && count == 9);
    ROW(precopy_trace_sweep(&held, NULL, 0, &sums, 1, &count) == PRECOPY_OK && count == 0);
    ROW(precopy_trace_page_writes(&held, 0, NULL, 0, &count) == PRECOPY_SHORT_BUFFER && count == 1);
    ROW(precopy_trace_memory_step(&held, 0, 1, NULL, 0) == PRECOPY_MEMORY_LENGTH);
    ROW(precopy_trace_memory_step(&held, 0, 0, NULL, 0) == PRECOPY_MEMORY_LENGTH);
}

static void nulls_of_frames(void) {
    struct precopy_frame head;
    struct precopy_taken taken = {9, 9};
    struct precopy_page state = {0, 0};
    struct precopy_finding found = {9, 9, 9, 9, 9, 9, 9, 9};
    struct precopy_progress progress = {0, 0, 0, 1};
    uint32_t last[1] = {0}, greatest[1] = {0};
    uint8_t memory[16] = {0};
    size_t needed = 9;
    ROW(precopy_trace_check_piece(&held, NULL, 0, &progress, NULL, 0, NULL, 0, NULL, 0, &found)
        == PRECOPY_MEMORY_LENGTH);
    ROW(precopy_trace_check_piece(&held, NULL, 0, &progress, NULL, 0, NULL, 0, memory, 16, &found)
        == PRECOPY_PAGE_COUNT);
    ROW(precopy_trace_check_pages(&held, &progress, NULL, 0, &found) == PRECOPY_PAGE_COUNT);
    ROW(precopy_trace_check_piece(&held, NULL, 0, &progress, last, 1, greatest, 1, memory, 16, &found) == PRECOPY_OK);
    ROW(precopy_trace_check_base(&held, 8, NULL, 0, NULL, 0) == PRECOPY_MEMORY_LENGTH);
    ROW(precopy_trace_check_base(&held, 8, NULL, 0, memory, 16) == PRECOPY_PAGE_COUNT);
    ROW(precopy_trace_check_bytes(&held, 1, 1, NULL, 0, NULL, 0, NULL, 0) == PRECOPY_MEMORY_LENGTH);
    ROW(precopy_trace_check_bytes(&held, 1, 1, NULL, 0, NULL, 0, memory, 16) == PRECOPY_PAGE_COUNT);
    ROW(precopy_trace_check_bytes(&held, 1, 1, NULL, 0, greatest, 1, memory, 16) == PRECOPY_NO_PAGE);
    ROW(precopy_trace_check_bytes(&held, 1, 0, NULL, 0, greatest, 1, memory, 16) == PRECOPY_PAGE_LENGTH);
    ROW(greatest[0] == 0 && precopy_is_zero(memory, 16));
    ROW(precopy_trace_differs(&held, 1, NULL, 0, NULL, 0, &found) == PRECOPY_MEMORY_LENGTH && found.page == 9);
    ROW(precopy_trace_differs(&held, 1, memory, 16, NULL, 0, &found) == PRECOPY_PAGE_LENGTH && found.page == 9);
    needed = 9;
    ROW(precopy_encode_frame(&sizes, 0, 1, NULL, 0, NULL, 0, &needed) == PRECOPY_PAGE_LENGTH && needed == 9);
    ROW(precopy_encode_frame(&sizes, 0, 1, page, 16, NULL, 0, &needed) == PRECOPY_SHORT_BUFFER && needed == 25);
    ROW(precopy_decode_frame(&sizes, NULL, 0, &head, NULL, 0) == PRECOPY_FRAME_SHORT);
    ROW(precopy_decode_frame(&sizes, frame, 25, &head, NULL, 0) == PRECOPY_SHORT_BUFFER);
    ROW(precopy_accept(&sizes, NULL, 0, NULL, 0, NULL, 0, &taken) == PRECOPY_MEMORY_LENGTH && taken.frames == 9);
    ROW(precopy_accept(&sizes, NULL, 0, memory, 16, NULL, 0, &taken) == PRECOPY_PAGE_COUNT && taken.frames == 9);
    ROW(precopy_accept(&sizes, NULL, 0, memory, 16, &state, 1, &taken) == PRECOPY_OK && taken.frames == 0);
    ROW(precopy_check_streams(NULL, 0, 1, NULL, 0, NULL, 0, &found, &record) == PRECOPY_SHORT_HEADER
        && found.offset == 9);
    ROW(precopy_check_streams(trace, sizeof trace, 1, NULL, 0, NULL, 0, &found, &record) == PRECOPY_PAGE_MISSING);
    ROW(found.missing == 1 && found.tick == 7);
    ROW(precopy_missing(NULL, 0, &needed) == PRECOPY_OK && needed == 25);
    ROW(precopy_is_zero(NULL, 0));
    ROW(precopy_refusal_text(PRECOPY_SHORT_HEADER, 0, NULL, 0, &needed) == PRECOPY_SHORT_BUFFER && needed > 25);
    ROW(precopy_finding_text(PRECOPY_OLDER, &found, NULL, 0, &needed) == PRECOPY_SHORT_BUFFER && needed > 25);
}

static void order_of_traces(void) {
    static const struct precopy_settings cases[2] = {PRECOPY_SETTINGS_DEFAULT, {.size = sizeof good}};
    struct precopy_sums sums[2];
    size_t count = 9;
    ROW(precopy_plan(trace, 5, &bad, sums, &record) == PRECOPY_BAD_THRESHOLD);
    ROW(precopy_report(trace, 5, &bad, NULL, 0, &count, &record) == PRECOPY_BAD_THRESHOLD);
    ROW(precopy_report(trace, 32, &good, NULL, 0, &count, &record) == PRECOPY_SHORT_RECORD && forget() == 0);
    ROW(precopy_memory(trace, 32, NULL, 0, &count, &record) == PRECOPY_SHORT_RECORD && forget() == 0);
    ROW(precopy_trace_plan(&held, &bad, sums) == PRECOPY_BAD_THRESHOLD);
    ROW(precopy_trace_rounds(&held, &bad, NULL, 0, &count) == PRECOPY_BAD_THRESHOLD);
    ROW(precopy_trace_report(&held, &bad, NULL, 0, &count) == PRECOPY_BAD_THRESHOLD);
    ROW(precopy_trace_sweep(&held, cases, 2, sums, 1, &count) == PRECOPY_SHORT_BUFFER);
    ROW(precopy_trace_sweep(&held, cases, 2, sums, 2, &count) == PRECOPY_BAD_MIN && count == 9);
    ROW(precopy_trace_sweep(&held, cases, 1, sums, 2, &count) == PRECOPY_OK && count == 0);
}

static void order_of_questions(void) {
    struct precopy_question other = asked;
    struct precopy_prediction told;
    struct precopy_errors errors;
    ROW(precopy_trace_predict(&held, &asked, &told, &errors) == PRECOPY_OK && told.left == 0);
    other.size = 0, other.tick = 0, other.page = 32;
    ROW(precopy_trace_predict(&held, &other, &told, &errors) == PRECOPY_BAD_SIZE);
    other.size = sizeof other;
    ROW(precopy_trace_predict(&held, &other, &told, &errors) == PRECOPY_BAD_TICK);
    other = asked, other.page = 32, other.link = 32000;
    ROW(precopy_trace_predict(&held, &other, &told, &errors) == PRECOPY_OTHER_PAGES);
}

static void order_of_amounts(void) {
    struct precopy_question other = asked;
    struct precopy_amounts amounts;
    ROW(precopy_trace_enough(&held, &asked, &amounts) == PRECOPY_OK && amounts.has_speed == 0);
    other.size = 0, other.tick = 0, other.page = 32;
    ROW(precopy_trace_enough(&held, &other, &amounts) == PRECOPY_BAD_SIZE);
    other.size = sizeof other;
    ROW(precopy_trace_enough(&held, &other, &amounts) == PRECOPY_BAD_TICK);
    other = asked, other.page = 32, other.link = 32000;
    ROW(precopy_trace_enough(&held, &other, &amounts) == PRECOPY_OTHER_PAGES);
}

static void order_of_agreements(void) {
    struct precopy_question other = asked;
    struct precopy_agreement agreement;
    ROW(precopy_trace_agreement(&held, &asked, &agreement) == PRECOPY_OK && agreement.draws == 0);
    other.size = 0, other.tick = 0, other.page = 32;
    ROW(precopy_trace_agreement(&held, &other, &agreement) == PRECOPY_BAD_SIZE);
    other.size = sizeof other;
    ROW(precopy_trace_agreement(&held, &other, &agreement) == PRECOPY_BAD_TICK);
    other = asked, other.page = 32, other.link = 32000;
    ROW(precopy_trace_agreement(&held, &other, &agreement) == PRECOPY_OTHER_PAGES);
}

static void order_of_forecasts(void) {
    struct precopy_question other = asked;
    struct precopy_forecast forecast;
    ROW(precopy_trace_forecast(&held, &asked, &forecast) == PRECOPY_OK);
    other.size = 0, other.tick = 0, other.page = 32;
    ROW(precopy_trace_forecast(&held, &other, &forecast) == PRECOPY_BAD_SIZE);
    other.size = sizeof other;
    ROW(precopy_trace_forecast(&held, &other, &forecast) == PRECOPY_BAD_TICK);
    other = asked, other.page = 32, other.link = 32000;
    ROW(precopy_trace_forecast(&held, &other, &forecast) == PRECOPY_OTHER_PAGES);
}

static void order_of_shares(void) {
    struct precopy_question other = asked;
    struct precopy_link_shares shares;
    ROW(precopy_trace_link_shares(&held, &asked, &shares) == PRECOPY_OK && shares.percent >= 50);
    other.size = 0, other.tick = 0, other.page = 32;
    ROW(precopy_trace_link_shares(&held, &other, &shares) == PRECOPY_BAD_SIZE);
    other.size = sizeof other;
    ROW(precopy_trace_link_shares(&held, &other, &shares) == PRECOPY_BAD_TICK);
    other = asked, other.page = 32, other.link = 32000;
    ROW(precopy_trace_link_shares(&held, &other, &shares) == PRECOPY_OTHER_PAGES);
}

static void order_of_starts(void) {
    struct precopy_question other = asked;
    struct precopy_starts many = {sizeof many, 4096, 1, 1, 1}, short_size = many;
    struct precopy_best_start best;
    struct precopy_errors errors;
    ROW(precopy_trace_best_start(&held, &asked, &all_starts, &best, &errors) == PRECOPY_OK);
    ROW(best.kept == PRECOPY_YES && best.start == 0 && best.is_likely == 1);
    short_size.size = 0, other.tick = 0;
    ROW(precopy_trace_best_start(&held, &other, &short_size, &best, &errors) == PRECOPY_BAD_SIZE);
    other.size = 0;
    ROW(precopy_trace_best_start(&held, &other, &many, &best, &errors) == PRECOPY_BAD_SIZE);
    other.size = sizeof other;
    ROW(precopy_trace_best_start(&held, &other, &many, &best, &errors) == PRECOPY_BAD_TICK);
    other = asked, other.page = 32, other.link = 32000;
    ROW(precopy_trace_best_start(&held, &other, &many, &best, &errors) == PRECOPY_OTHER_PAGES);
    ROW(precopy_trace_best_start(&held, &asked, &many, &best, &errors) == PRECOPY_TOO_MANY_STARTS);
}

static void order_of_places(void) {
    struct precopy_write writes[1];
    struct precopy_trace opened;
    size_t count = 9;
    ROW(precopy_trace_open(trace, 32, NULL, 0, &opened, &count, &record) == PRECOPY_SHORT_RECORD && forget() == 0);
    ROW(precopy_trace_page_at(&held, 1, 2, NULL, 0) == PRECOPY_NO_PAGE);
    ROW(precopy_trace_page_at(&held, 0, 2, NULL, 0) == PRECOPY_NO_VERSION);
    ROW(precopy_trace_page_writes(&held, 1, writes, 0, &count) == PRECOPY_NO_PAGE && count == 9);
    ROW(precopy_trace_page_writes(&held, 0, writes, 0, &count) == PRECOPY_SHORT_BUFFER && count == 1);
    ROW(precopy_trace_memory_step(&held, 2, 1, NULL, 0) == PRECOPY_BACKWARDS);
    ROW(precopy_trace_memory_step(&held, 1, 2, NULL, 0) == PRECOPY_MEMORY_LENGTH);
}

static void order_of_frames(void) {
    static const size_t whole[] = {25};
    struct precopy_finding found = {9, 9, 9, 9, 9, 9, 9, 9};
    struct precopy_frame head;
    struct precopy_taken taken;
    struct precopy_page states[2] = {{0, 0}, {0, 0}};
    uint8_t memory[17] = {0};
    size_t needed;
    ROW(precopy_encode_frame(&no_sizes, 1, 2, page, 15, NULL, 0, &needed) == PRECOPY_BAD_PAGES);
    ROW(precopy_encode_frame(&sizes, 1, 2, page, 15, NULL, 0, &needed) == PRECOPY_FRAME_PAGE);
    ROW(precopy_encode_frame(&sizes, 0, 2, page, 15, NULL, 0, &needed) == PRECOPY_FRAME_STAMP);
    ROW(precopy_encode_frame(&sizes, 0, 1, page, 15, NULL, 0, &needed) == PRECOPY_PAGE_LENGTH);
    ROW(precopy_decode_frame(&no_sizes, frame, 24, &head, NULL, 0) == PRECOPY_BAD_PAGES);
    ROW(precopy_decode_frame(&sizes, frame, 24, &head, NULL, 0) == PRECOPY_FRAME_SHORT);
    ROW(precopy_check_streams(trace, 5, 1, frame, 24, whole, 1, &found, &record) == PRECOPY_STREAM_SIZES
        && found.page == 9);
    ROW(precopy_check_streams(trace, 32, 1, frame, 25, whole, 1, &found, &record) == PRECOPY_SHORT_RECORD
        && forget() == 0 && found.page == 9);
    ROW(precopy_check_streams(trace, sizeof trace, 1, frame, 25, whole, 1, &found, &record) == PRECOPY_OK
        && found.page == 9);
    ROW(precopy_accept(&no_sizes, frame, 24, memory, 17, states, 2, &taken) == PRECOPY_BAD_PAGES);
    ROW(precopy_accept(&sizes, frame, 24, memory, 17, states, 2, &taken) == PRECOPY_MEMORY_LENGTH);
    ROW(precopy_accept(&sizes, frame, 24, memory, 16, states, 2, &taken) == PRECOPY_PAGE_COUNT);
    ROW(precopy_accept(&sizes, frame, 24, memory, 16, states, 1, &taken) == PRECOPY_FRAME_SHORT);
}

static void recordings(void) {
    struct precopy_recording recording = {9, 9, 9, 9, 9};
    uint8_t made[32];
    ROW(precopy_record_begin(NULL, 0, 4, 1, &recording) == PRECOPY_SHORT_BUFFER && recording.length == 9);
    ROW(precopy_record_begin(NULL, 0, 3, 0, &recording) == PRECOPY_BAD_SHIFT);
    ROW(precopy_record_begin(NULL, 0, 4, 0, &recording) == PRECOPY_BAD_PAGES);
    ROW(precopy_record_begin(made, sizeof made, 4, 1, &recording) == PRECOPY_OK && recording.length == 16);
    ROW(precopy_record_write(made, sizeof made, &recording, 0, 0, 0, NULL, 0) == PRECOPY_EMPTY_WRITE);
    ROW(precopy_record_write(NULL, 0, &recording, 1ull << 40, 1, 17, page, 16) == PRECOPY_TICK_TOO_LARGE);
    ROW(precopy_record_write(NULL, 0, &recording, 0, 1, 17, page, 16) == PRECOPY_PAGE_OUT_OF_RANGE);
    ROW(precopy_record_write(NULL, 0, &recording, 0, 0, 1, page, 16) == PRECOPY_OUT_OF_PAGE);
    ROW(precopy_record_write(NULL, 0, &recording, 0, 0, 0, page, 16) == PRECOPY_SHORT_BUFFER);
    ROW(precopy_record_release(NULL, 0, &recording, 0, 1) == PRECOPY_PAGE_OUT_OF_RANGE);
    ROW(precopy_record_release(NULL, 0, &recording, 0, 0) == PRECOPY_SHORT_BUFFER && recording.length == 16);
}

int main(void) {
    open_held();
    nulls_of_traces();
    nulls_of_open_traces();
    nulls_of_frames();
    order_of_traces();
    order_of_questions();
    order_of_amounts();
    order_of_agreements();
    order_of_forecasts();
    order_of_shares();
    order_of_starts();
    order_of_places();
    order_of_frames();
    recordings();
    printf("%d passed, %d failed\n", passed, failed);
    return failed != 0;
}
