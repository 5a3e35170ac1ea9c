/*
 * Worked examples of each function of the library for C, whose values were worked out by hand.
 */
#include "row.h"
#include "precopy.h"

#include <string.h>

/* Pages of 16 bytes, 4 pages, 5 writes: of pages 0 and 1 at ticks 0 and 5, of page 1 at tick 1200, of pages 3 and 1 at
 * tick 2500. */
static const uint8_t trace[102] = {
    0x50, 0x43, 0x57, 0x54, 1, 4, 0, 0, 4, 0, 0, 0, 5,  0, 0, 0,       /* */
    0,    0,    0,    0,    0, 0, 0, 0, 0, 0, 0, 0, 0,  0, 1, 0, 1,    /* */
    5,    0,    0,    0,    0, 0, 0, 0, 1, 0, 0, 0, 15, 0, 1, 0, 2,    /* */
    0xb0, 4,    0,    0,    0, 0, 0, 0, 1, 0, 0, 0, 0,  0, 1, 0, 3,    /* */
    0xc4, 9,    0,    0,    0, 0, 0, 0, 3, 0, 0, 0, 2,  0, 2, 0, 4, 5, /* */
    0xc4, 9,    0,    0,    0, 0, 0, 0, 1, 0, 0, 0, 0,  0, 1, 0, 0,
};

/* The record of a refused trace; the calls that do not refuse it leave it. */
static uint32_t record = 9;

/* The trace, which stays open over the words of its index: 3 of each write and 1 of each page. */
static struct precopy_trace held;
static uint32_t index_words[19];

static void open_held(void) {
    size_t needed = 9;
    ROW(precopy_trace_open(trace, sizeof trace, index_words, 19, &held, &needed, &record) == PRECOPY_OK);
    ROW(needed == 19 && record == 9);
}

static const struct precopy_settings slow = {sizeof slow, 2, 4, 1, 1, 8, 0, 1000, 2, 0, 0, 0};

static int are(const struct precopy_sums *sums, uint64_t rounds, uint64_t reason, uint64_t stop, uint64_t down,
               uint64_t total) {
    return sums->rounds == rounds && sums->reason == reason && sums->stop == stop && sums->down == down
           && sums->total == total;
}

static void plans(void) {
    struct precopy_sums sums;
    struct precopy_round rounds[3];
    size_t count = 0;
    ROW(precopy_plan(trace, sizeof trace, &slow, &sums, &record) == PRECOPY_OK);
    ROW(are(&sums, 3, PRECOPY_FEW, 3667, 0, 8));
    memset(&sums, 9, sizeof sums);
    ROW(precopy_trace_plan(&held, &slow, &sums) == PRECOPY_OK);
    ROW(are(&sums, 3, PRECOPY_FEW, 3667, 0, 8));
    ROW(precopy_trace_rounds(&held, &slow, rounds, 2, &count) == PRECOPY_SHORT_BUFFER && count == 3);
    ROW(precopy_trace_rounds(&held, &slow, rounds, 3, &count) == PRECOPY_OK && count == 3);
    ROW(rounds[0].from == 0 && rounds[0].to == 2000 && rounds[0].rate == 2 && rounds[0].pages == 4);
    ROW(rounds[1].from == 2000 && rounds[1].to == 3000 && rounds[1].sent == 2 && rounds[1].dirtied == 2);
    ROW(rounds[2].from == 3000 && rounds[2].to == 3667 && rounds[2].rate == 3 && rounds[2].dirtied == 0);
    /* A warm start: the destination lacks only page 1 at tick 1201, and what is written at tick 2500 remains. */
    struct precopy_settings warm = slow;
    warm.start = 1201, warm.has_base = 1, warm.base = 6;
    ROW(precopy_trace_rounds(&held, &warm, rounds, 3, &count) == PRECOPY_OK && rounds[0].pages == 1);
    ROW(rounds[0].from == 1201 && rounds[0].to == 1701 && rounds[0].dirtied == 0 && count == 1);
}

static void reports(void) {
    static const char report[] = "trace pages 4 size 16 writes 5\n"
                                 "window 0 writes 2 pages 2 again 0 fresh 2\n"
                                 "window 1 writes 1 pages 1 again 1 fresh 0\n"
                                 "window 2 writes 2 pages 2 again 1 fresh 1\n"
                                 "hot 2 pages 1\n"
                                 "page 1\n"
                                 "round 0 from 0 to 2000 rate 2 pages 4 sent 4 dirtied 2\n"
                                 "round 1 from 2000 to 3000 rate 2 pages 2 sent 2 dirtied 2\n"
                                 "round 2 from 3000 to 3667 rate 3 pages 2 sent 2 dirtied 0\n"
                                 "stop few at 3667 pages 0 down 0 total 8\n";
    uint8_t text[400];
    size_t needed = 0;
    ROW(precopy_report(trace, sizeof trace, &slow, text, sizeof report - 2, &needed, &record) == PRECOPY_SHORT_BUFFER);
    ROW(needed == sizeof report - 1);
    ROW(precopy_report(trace, sizeof trace, &slow, text, sizeof text, &needed, &record) == PRECOPY_OK);
    ROW(needed == sizeof report - 1 && !memcmp(text, report, needed));
    memset(text, 9, sizeof text), needed = 0;
    ROW(precopy_trace_report(&held, &slow, text, sizeof report - 2, &needed) == PRECOPY_SHORT_BUFFER);
    ROW(needed == sizeof report - 1 && text[0] == 9);
    ROW(precopy_trace_report(&held, &slow, text, sizeof text, &needed) == PRECOPY_OK);
    ROW(needed == sizeof report - 1 && !memcmp(text, report, needed) && text[needed] == 9);
}

static void sweeps(void) {
    struct precopy_settings cases[] = {slow, slow, slow};
    struct precopy_sums sums[3];
    size_t best = 9;
    cases[0].threshold = 3, cases[1].max = 2;
    ROW(precopy_trace_sweep(&held, cases, 3, sums, 3, &best) == PRECOPY_OK && best == 2);
    ROW(are(&sums[0], 1, PRECOPY_FEW, 2000, 500, 6) && are(&sums[1], 2, PRECOPY_FAST, 3000, 1000, 8));
    ROW(are(&sums[2], 3, PRECOPY_FEW, 3667, 0, 8));
    cases[1].max = 1;
    ROW(precopy_trace_sweep(&held, cases, 3, sums, 3, &best) == PRECOPY_BAD_MAX && best == 2);
    ROW(precopy_check_settings(&cases[1]) == PRECOPY_BAD_MAX && precopy_check_settings(&slow) == PRECOPY_OK);
    ROW(precopy_trace_sweep(&held, cases, 0, sums, 0, &best) == PRECOPY_OK && best == 0);
    cases[0] = cases[1] = slow, cases[1].size = 0;
    ROW(precopy_trace_sweep(&held, cases, 3, sums, 3, &best) == PRECOPY_BAD_SIZE && best == 0);
}

static void sizes_of_settings(void) {
    static const uint64_t sizes[] = {0, sizeof slow - 1, sizeof slow + 1, UINT64_MAX};
    struct precopy_settings other = slow;
    struct precopy_sums sums;
    struct precopy_round rounds[3];
    uint8_t text[400];
    size_t count = 9;
    other.min = 0;
    for (int i = 0; i < 4; i++) {
        other.size = sizes[i];
        ROW(precopy_check_settings(&other) == PRECOPY_BAD_SIZE);
        ROW(precopy_plan(trace, sizeof trace, &other, &sums, &record) == PRECOPY_BAD_SIZE);
        ROW(precopy_trace_rounds(&held, &other, rounds, 3, &count) == PRECOPY_BAD_SIZE);
        ROW(precopy_report(trace, sizeof trace, &other, text, sizeof text, &count, &record) == PRECOPY_BAD_SIZE);
        ROW(precopy_trace_plan(&held, &other, &sums) == PRECOPY_BAD_SIZE);
        ROW(precopy_trace_report(&held, &other, text, sizeof text, &count) == PRECOPY_BAD_SIZE);
    }
    ROW(count == 9);
}

/* Clark's rounds of 2 and 4 pages per 1,000 ticks of 1 ms; the rates are in bytes a second of a guest of 8 pages, half
 * of which were recorded. */
static const struct precopy_question half = {sizeof half, 128, 64, 600000, 100000, 1000, 16, 4, 8,
                                             1,           8,   0,  0,      1,      1,    0,  0, 1};

static int is_told(const struct precopy_prediction *told, uint64_t time, uint64_t bytes, uint64_t downtime,
                   uint64_t left, uint32_t verdict) {
    return told->time == time && told->bytes == bytes && told->downtime == downtime && told->left == left
           && told->recorded == 2500000 && told->converges == verdict && told->kept == verdict;
}

static int are_errors(const struct precopy_errors *errors, uint64_t bytes, uint64_t time, uint64_t downtime,
                      uint32_t has_errors) {
    return errors->bytes == bytes && errors->time == time && errors->downtime == downtime
           && errors->has_errors == has_errors;
}

static void predictions(void) {
    struct precopy_prediction told;
    struct precopy_errors errors;
    struct precopy_question asked = half;
    ROW(precopy_trace_predict(&held, &asked, &told, &errors) == PRECOPY_OK);
    ROW(told.rounds == 1 && told.reason == PRECOPY_FEW && told.stop == 2000 && told.down == 500 && told.total == 6);
    ROW(is_told(&told, 2600000, 192, 600000, 2, PRECOPY_YES));
    /* The standard errors are those of python/precopy_dev/models/redrawn.py. */
    ROW(are_errors(&errors, 48, 430565, 129524, 1));
    asked.guest = 4, asked.link = 64, asked.first = 32;
    ROW(precopy_trace_predict(&held, &asked, &told, &errors) == PRECOPY_OK);
    ROW(is_told(&told, 2600000, 96, 600000, 2, PRECOPY_YES) && are_errors(&errors, 0, 0, 0, 0));
    asked.rounds = 1, asked.downtime = asked.reserve = 0;
    ROW(precopy_trace_predict(&held, &asked, &told, &errors) == PRECOPY_OK);
    ROW(is_told(&told, 2500000, 96, 500000, 2, PRECOPY_NO) && told.reason == PRECOPY_ALL_ROUNDS);
    /* The plan stops at tick 3667, after the last write. */
    asked.rounds = 8, asked.downtime = 100000, asked.reserve = 50000;
    ROW(precopy_trace_predict(&held, &asked, &told, &errors) == PRECOPY_OK);
    ROW(is_told(&told, 3717000, 128, 50000, 0, PRECOPY_UNKNOWN) && told.stop == 3667);
    /* A warm start, of which only page 1 is sent, and after which page 1 and page 3 are left at tick 2500. */
    asked.has_base = 1, asked.base = 6, asked.start = 1201;
    ROW(precopy_trace_predict(&held, &asked, &told, &errors) == PRECOPY_OK);
    ROW(told.rounds == 1 && told.stop == 1701 && told.recorded == 1299000 && told.kept == PRECOPY_YES);
}

static int is_sure(const struct precopy_question *asked, struct precopy_agreement wanted) {
    struct precopy_agreement told;
    memset(&told, 9, sizeof told);
    return precopy_trace_agreement(&held, asked, &told) == PRECOPY_OK && !memcmp(&told, &wanted, sizeof told);
}

/* The counts are those of python/precopy_dev/models/agreements.py. */
static void agreements(void) {
    struct precopy_question asked = half;
    uint32_t yes = PRECOPY_YES, no = PRECOPY_NO, unknown = PRECOPY_UNKNOWN, uncertain = PRECOPY_UNCERTAIN;
    ROW(is_sure(&asked, (struct precopy_agreement){20, 9, 9, 9, 5, 5, 5, uncertain, uncertain}));
    asked.guest = 4, asked.link = 64, asked.first = 32;
    ROW(is_sure(&asked, (struct precopy_agreement){0, 0, 0, 0, 5, 5, 5, yes, yes}));
    asked.rounds = 1, asked.downtime = asked.reserve = 0;
    ROW(is_sure(&asked, (struct precopy_agreement){0, 0, 0, 0, 5, 0, 0, no, no}));
    asked.rounds = 8, asked.downtime = 100000, asked.reserve = 50000;
    ROW(is_sure(&asked, (struct precopy_agreement){0, 0, 0, 0, 0, 0, 0, unknown, unknown}));
    asked.has_base = 1, asked.base = 6, asked.start = 1201;
    ROW(is_sure(&asked, (struct precopy_agreement){0, 0, 0, 0, 16, 16, 16, yes, yes}));
}

static int is_foretold(const struct precopy_question *asked, struct precopy_forecast wanted) {
    struct precopy_forecast told;
    memset(&told, 9, sizeof told);
    return precopy_trace_forecast(&held, asked, &told) == PRECOPY_OK && !memcmp(&told, &wanted, sizeof told);
}

/* Like QEMU: the numbers are those of checks/lib/look_model.py. */
static void forecasts(void) {
    struct precopy_question asked = half;
    uint32_t few = PRECOPY_FEW_LEFT, ends = PRECOPY_TRACE_ENDS, none = PRECOPY_NOT_BEGUN;
    ROW(is_foretold(&asked, (struct precopy_forecast){2, 1600000, 192, 64, 600000, few, PRECOPY_YES}));
    asked.downtime = 100100;
    ROW(is_foretold(&asked, (struct precopy_forecast){3, 1850000, 224, 0, 100000, few, PRECOPY_YES}));
    asked = half, asked.has_base = 1, asked.base = 6, asked.start = 1201;
    ROW(is_foretold(&asked, (struct precopy_forecast){1, 450000, 32, 32, 350000, few, PRECOPY_YES}));
    asked = half, asked.start = 2400;
    ROW(is_foretold(&asked, (struct precopy_forecast){0, 1200000, 128, 128, 1100000, ends, PRECOPY_UNKNOWN}));
    asked.start = 2501;
    ROW(is_foretold(&asked, (struct precopy_forecast){0, 0, 0, 0, 0, none, PRECOPY_UNKNOWN}));
}

static int are_shares(const struct precopy_question *asked, struct precopy_link_shares wanted) {
    struct precopy_link_shares told;
    memset(&told, 9, sizeof told);
    return precopy_trace_link_shares(&held, asked, &told) == PRECOPY_OK && !memcmp(&told, &wanted, sizeof told);
}

/* The shares are those of python/precopy_dev/models/shares.py. */
static void shares(void) {
    struct precopy_question asked = half;
    uint32_t yes = PRECOPY_YES, no = PRECOPY_NO, unknown = PRECOPY_UNKNOWN;
    ROW(are_shares(&asked, (struct precopy_link_shares){100, yes, unknown}));
    asked.guest = 4, asked.link = 64, asked.first = 32, asked.rounds = 1, asked.downtime = asked.reserve = 0;
    ROW(are_shares(&asked, (struct precopy_link_shares){50, no, no}));
    asked = half, asked.has_base = 1, asked.base = 6, asked.start = 1201;
    ROW(are_shares(&asked, (struct precopy_link_shares){50, yes, yes}));
    asked = half, asked.start = 2400;
    ROW(are_shares(&asked, (struct precopy_link_shares){50, unknown, unknown}));
}

/* Whether the best start is this one, with these standard errors, which are of the fields that are not 0. */
static int is_best(const struct precopy_question *asked, const struct precopy_starts *starts,
                   struct precopy_best_start wanted, struct precopy_errors far) {
    struct precopy_best_start told;
    struct precopy_errors errors;
    memset(&told, 9, sizeof told);
    return precopy_trace_best_start(&held, asked, starts, &told, &errors) == PRECOPY_OK
           && !memcmp(&told, &wanted, sizeof told)
           && are_errors(&errors, far.bytes, far.time, far.downtime, far.has_errors);
}

/* The starts are those of checks/lib/migration_model.py. */
static void best_starts(void) {
    struct precopy_question asked = half;
    struct precopy_starts starts = PRECOPY_STARTS_DEFAULT;
    struct precopy_errors none = {0, 0, 0, 0}, far = {48, 360008, 129524, 1};
    uint32_t yes = PRECOPY_YES, no = PRECOPY_NO, unknown = PRECOPY_UNKNOWN;
    /* 350 ms and two errors of 130 ms are 9 ms above the limit. */
    ROW(is_best(&asked, &starts, (struct precopy_best_start){13, 1, 2350000, 160, 350000, yes, 0}, far));
    starts.has_to = starts.has_every = 1, starts.to = 100;
    ROW(is_best(&asked, &starts, (struct precopy_best_start){1, 1, 2350000, 160, 350000, yes, 0}, far));
    starts.to = 0, starts.has_every = 0;
    far.time = 430565;
    ROW(is_best(&asked, &starts, (struct precopy_best_start){0, 1, 2600000, 192, 600000, yes, 0}, far));
    starts.has_to = 0, starts.has_every = 1, starts.every = 500, asked.downtime = 900000;
    far = (struct precopy_errors){32, 172062, 172062, 1};
    ROW(is_best(&asked, &starts, (struct precopy_best_start){500, 1, 2350000, 160, 350000, yes, 1}, far));
    asked = half, asked.guest = 4, asked.link = 64, asked.first = 32;
    ROW(is_best(&asked, &starts, (struct precopy_best_start){500, 1, 2350000, 80, 350000, yes, 1}, none));
    asked.rounds = 1, asked.downtime = asked.reserve = 0;
    ROW(is_best(&asked, &starts, (struct precopy_best_start){500, 1, 2250000, 80, 250000, no, 0}, none));
    asked = half, asked.has_base = 1, asked.base = 6, asked.start = 1201, starts.every = 100;
    far = (struct precopy_errors){48, 520628, 0, 1};
    ROW(is_best(&asked, &starts, (struct precopy_best_start){1201, 1, 600000, 32, 100000, yes, 1}, far));
    asked = half, asked.start = 2400;
    ROW(is_best(&asked, &starts, (struct precopy_best_start){0, 0, 0, 0, 0, unknown, 0}, none));
}

/* Returns what is told of some starts, the first at a tick. */
static uint32_t started(uint64_t first, struct precopy_starts starts) {
    struct precopy_question asked = half;
    struct precopy_best_start best = {9, 9, 9, 9, 9, 9, 9}, before = best;
    struct precopy_errors errors = {9, 9, 9, 9};
    asked.start = first;
    uint32_t status = precopy_trace_best_start(&held, &asked, &starts, &best, &errors);
    ROW(status == PRECOPY_OK || (!memcmp(&best, &before, sizeof best) && are_errors(&errors, 9, 9, 9, 9)));
    return status;
}

static void numbers_of_starts(void) {
    struct precopy_starts starts = PRECOPY_STARTS_DEFAULT;
    const uint64_t last = ((uint64_t)1 << 40) - 1, size = sizeof starts;
    ROW(started(0, starts) == PRECOPY_OK && started(last, starts) == PRECOPY_OK);
    ROW(started(last + 1, starts) == PRECOPY_BAD_START);
    starts.has_to = starts.has_every = 1, starts.to = 4095, starts.every = 1;
    ROW(started(0, starts) == PRECOPY_OK);
    starts.every = 0;
    ROW(started(0, starts) == PRECOPY_OK);
    starts.to = 4096;
    ROW(started(0, starts) == PRECOPY_TOO_MANY_STARTS && started(1, starts) == PRECOPY_OK);
    starts.every = UINT64_MAX;
    ROW(started(0, starts) == PRECOPY_OK && started(5000, starts) == PRECOPY_OK);
    starts.to = last, starts.every = last;
    ROW(started(0, starts) == PRECOPY_OK);
    starts.to = UINT64_MAX, starts.every = (uint64_t)1 << 52;
    ROW(started(0, starts) == PRECOPY_BAD_START);
    starts.every--;
    ROW(started(0, starts) == PRECOPY_TOO_MANY_STARTS);
    starts.size = size - 1;
    ROW(started(0, starts) == PRECOPY_BAD_SIZE);
    starts.size = size + 1;
    ROW(started(0, starts) == PRECOPY_BAD_SIZE);
}

/* Compares all fields; behind the last there is a gap. */
static int are_amounts(const struct precopy_amounts *one, const struct precopy_amounts *other) {
    return !memcmp(one, other, offsetof(struct precopy_amounts, ends) + sizeof one->ends);
}

static int are_enough(const struct precopy_question *asked, struct precopy_amounts wanted) {
    struct precopy_amounts told;
    memset(&told, 9, sizeof told);
    return precopy_trace_enough(&held, asked, &told) == PRECOPY_OK && are_amounts(&told, &wanted);
}

/* The amounts are those of python/precopy_dev/models/remedies.py. */
static void amounts(void) {
    struct precopy_question asked = half;
    ROW(are_enough(&asked, (struct precopy_amounts){250, 600000, 0, 0, 0, 1, 1, 0, 0, 0, 1, 1}));
    asked.start = 2400;
    ROW(are_enough(&asked, (struct precopy_amounts){0, 0, 5, 0, 500, 0, 0, 1, 0, 1, 0, 0}));
    asked = half, asked.guest = 4, asked.link = 64, asked.first = 32, asked.downtime = 100000, asked.reserve = 50000;
    ROW(are_enough(&asked, (struct precopy_amounts){750, 550000, 65, 750, 0, 1, 1, 1, 1, 0, 0, 0}));
    asked.rounds = 1, asked.downtime = asked.reserve = 0;
    ROW(are_enough(&asked, (struct precopy_amounts){0, 0, 0, 0, 0, 0, 0, 0, 0, 0, 0, 1}));
    asked = half, asked.has_base = 1, asked.base = 6, asked.start = 1201;
    ROW(are_enough(&asked, (struct precopy_amounts){125, 100195, 0, 0, 0, 1, 1, 0, 0, 0, 1, 1}));
}

static int is_predicted(const struct precopy_question *asked, struct precopy_prediction wanted,
                        struct precopy_errors far) {
    struct precopy_prediction told;
    struct precopy_errors errors;
    memset(&told, 9, sizeof told);
    return precopy_trace_predict(&held, asked, &told, &errors) == PRECOPY_OK && !memcmp(&told, &wanted, sizeof told)
           && are_errors(&errors, far.bytes, far.time, far.downtime, far.has_errors);
}

/* The same by a hypervisor's looks: the numbers are those of checks/lib/migration_model.py. */
static void looks(void) {
    struct precopy_question asked = half;
    struct precopy_starts starts = PRECOPY_STARTS_DEFAULT;
    uint32_t yes = PRECOPY_YES, unknown = PRECOPY_UNKNOWN, uncertain = PRECOPY_UNCERTAIN;
    struct precopy_errors far = {32, 135918, 0, 1}, none = {0, 0, 0, 1};
    struct precopy_prediction kept = {2, PRECOPY_FEW, 1000, 500, 6, 2, 1600000, 192, 600000, 2500000, yes, yes};
    asked.clark = 0;
    ROW(is_predicted(&asked, kept, far));
    ROW(is_sure(&asked, (struct precopy_agreement){20, 18, 18, 18, 17, 17, 17, uncertain, uncertain}));
    ROW(are_shares(&asked, (struct precopy_link_shares){50, yes, yes}));
    ROW(are_enough(&asked, (struct precopy_amounts){125, 100195, 0, 0, 0, 1, 1, 0, 0, 0, 1, 1}));
    ROW(is_best(&asked, &starts, (struct precopy_best_start){13, 1, 1100000, 128, 600000, yes, 1}, none));
    /* What is of rounds alone changes nothing, but its range is tested. */
    asked.first = 128, asked.increment = 7, asked.rounds = 1, asked.skip = 1;
    ROW(is_predicted(&asked, kept, far));
    asked.rounds = 0;
    ROW(precopy_trace_predict(&held, &asked, &kept, &far) == PRECOPY_BAD_ROUNDS);
    /* The trace ends before all pages are sent. */
    asked = half, asked.clark = 0, asked.start = 2400;
    ROW(is_predicted(
        &asked,
        (struct precopy_prediction){0, PRECOPY_CUT, 2501, 1000, 4, 4, 1201000, 128, 1100000, 100000, unknown, unknown},
        none));
    /* Any other number than 0 asks for rounds. */
    asked = half, asked.clark = UINT32_MAX;
    ROW(is_sure(&asked, (struct precopy_agreement){20, 9, 9, 9, 5, 5, 5, PRECOPY_UNCERTAIN, PRECOPY_UNCERTAIN}));
}

/* Returns what is told of a question with one other number. */
static uint32_t refused(struct precopy_question asked) {
    struct precopy_prediction told = {9, 9, 9, 9, 9, 9, 9, 9, 9, 9, 9, 9};
    struct precopy_errors errors = {9, 9, 9, 9};
    struct precopy_amounts amounts = {9, 9, 9, 9, 9, 9, 9, 9, 9, 9, 9, 9}, before = amounts;
    struct precopy_agreement sure = {9, 9, 9, 9, 9, 9, 9, 9, 9}, not_sure = sure;
    struct precopy_forecast forecast = {9, 9, 9, 9, 9, 9, 9}, not_told = forecast;
    struct precopy_link_shares shares = {9, 9, 9}, no_shares = shares;
    struct precopy_starts starts = PRECOPY_STARTS_DEFAULT;
    struct precopy_best_start best = {9, 9, 9, 9, 9, 9, 9}, no_best = best;
    uint32_t status = precopy_trace_predict(&held, &asked, &told, &errors);
    ROW(told.time == 9 && told.kept == 9 && are_errors(&errors, 9, 9, 9, 9));
    ROW(precopy_trace_enough(&held, &asked, &amounts) == status);
    ROW(are_amounts(&amounts, &before));
    ROW(precopy_trace_agreement(&held, &asked, &sure) == status);
    ROW(!memcmp(&sure, &not_sure, sizeof sure));
    ROW(precopy_trace_forecast(&held, &asked, &forecast) == status);
    ROW(!memcmp(&forecast, &not_told, sizeof forecast));
    ROW(precopy_trace_link_shares(&held, &asked, &shares) == status);
    ROW(!memcmp(&shares, &no_shares, sizeof shares));
    ROW(precopy_trace_best_start(&held, &asked, &starts, &best, &errors) == status);
    ROW(!memcmp(&best, &no_best, sizeof best) && are_errors(&errors, 9, 9, 9, 9));
    return status;
}

static void questions(void) {
    struct precopy_question asked = half;
    asked.size--;
    ROW(refused(asked) == PRECOPY_BAD_SIZE);
    asked.size += 2;
    ROW(refused(asked) == PRECOPY_BAD_SIZE);
    asked = half, asked.tick = 0;
    ROW(refused(asked) == PRECOPY_BAD_TICK);
    asked = half, asked.page = 15;
    ROW(refused(asked) == PRECOPY_BAD_PAGE);
    asked = half, asked.sampled = 9;
    ROW(refused(asked) == PRECOPY_BAD_SAMPLE);
    asked = half, asked.link = 31;
    ROW(refused(asked) == PRECOPY_BAD_LINK);
    asked = half, asked.first = 160;
    ROW(refused(asked) == PRECOPY_BAD_FIRST);
    asked = half, asked.reserve = 600001;
    ROW(refused(asked) == PRECOPY_BAD_RESERVE);
    asked = half, asked.downtime = 20000000000;
    ROW(refused(asked) == PRECOPY_BAD_DOWNTIME);
    asked = half, asked.rounds = 65;
    ROW(refused(asked) == PRECOPY_BAD_ROUNDS);
    asked = half, asked.has_base = 1, asked.base = 1;
    ROW(refused(asked) == PRECOPY_BAD_BASE);
    asked = half, asked.page = 32, asked.link = 256, asked.first = 128;
    ROW(refused(asked) == PRECOPY_OTHER_PAGES);
    asked = half, asked.sampled = 3;
    ROW(refused(asked) == PRECOPY_MORE_PAGES);
}

static void memories(void) {
    uint8_t memory[64], wanted[64] = {0};
    size_t needed = 0;
    wanted[0] = 1, wanted[16] = 3, wanted[31] = 2;
    ROW(precopy_trace_memory_before(&held, 2500, memory, 64, &needed) == PRECOPY_OK);
    ROW(needed == 64 && !memcmp(memory, wanted, 64));
    wanted[16] = 0, wanted[50] = 4, wanted[51] = 5;
    ROW(precopy_trace_memory_before(&held, 2501, memory, 64, &needed) == PRECOPY_OK);
    ROW(!memcmp(memory, wanted, 64));
    memset(memory, 9, sizeof memory);
    ROW(precopy_memory(trace, sizeof trace, memory, 64, &needed, &record) == PRECOPY_OK && !memcmp(memory, wanted, 64));
    ROW(precopy_memory(trace, sizeof trace, memory, 63, &needed, &record) == PRECOPY_SHORT_BUFFER && needed == 64);
}

/* The worked trace is opened: 5 writes to 4 pages make an index of 19 words. */
static void open_traces(void) {
    uint32_t words[20], count = 9;
    uint8_t memory[65];
    struct precopy_trace opened = {0}, none = {0};
    size_t needed = 9;
    words[19] = 9;
    ROW(precopy_trace_open(trace, sizeof trace, words, 18, &opened, &needed, &record) == PRECOPY_SHORT_BUFFER);
    ROW(needed == 19 && !memcmp(&opened, &none, sizeof opened));
    ROW(precopy_trace_open(trace, sizeof trace - 1, words, 20, &opened, &needed, &record) == PRECOPY_SHORT_RECORD);
    ROW(record == 4 && needed == 19 && !memcmp(&opened, &none, sizeof opened));
    record = 9;
    ROW(precopy_trace_open(trace, sizeof trace, words, 20, &opened, &needed, &record) == PRECOPY_OK && needed == 19);
    ROW(words[19] == 9 && opened.sizes.shift == 4 && opened.sizes.pages == 4 && opened.sizes.writes == 5);
    ROW(opened.version == 1 && !memcmp(words, index_words, sizeof index_words));
    ROW(19 <= PRECOPY_WORDS_BOUND(sizeof trace));
    ROW(precopy_trace_writes_before(&opened, 0, &count) == PRECOPY_OK && count == 0);
    ROW(precopy_trace_writes_before(&opened, 2500, &count) == PRECOPY_OK && count == 3);
    ROW(precopy_trace_writes_before(&opened, 2501, &count) == PRECOPY_OK && count == 5);
    memset(memory, 9, sizeof memory), needed = 9;
    ROW(precopy_trace_memory_before(&opened, 2500, memory, 63, &needed) == PRECOPY_SHORT_BUFFER && needed == 64);
    ROW(memory[0] == 9);
    ROW(precopy_trace_memory_before(&opened, 2500, memory, 65, &needed) == PRECOPY_OK && needed == 64);
    ROW(memory[0] == 1 && memory[16] == 3 && memory[31] == 2 && memory[64] == 9);
}

static void versions_of_pages(void) {
    static const uint32_t after_four[5] = {1, 3, 0, 4, 9}, after_all[5] = {1, 5, 0, 4, 9};
    static const uint32_t before_last[5] = {1, 3, 0, 0, 9};
    uint32_t versions[5] = {9, 9, 9, 9, 9}, version = 9;
    size_t needed = 9;
    ROW(precopy_trace_version_after(&held, 1, 0, &version) == PRECOPY_OK && version == 0);
    ROW(precopy_trace_version_after(&held, 1, 4, &version) == PRECOPY_OK && version == 3);
    ROW(precopy_trace_version_after(&held, 4, 5, &version) == PRECOPY_NO_PAGE && version == 3);
    ROW(precopy_trace_version_after(&held, 1, 5, &version) == PRECOPY_OK && version == 5);
    ROW(precopy_trace_version_after(&held, 1, UINT32_MAX, &version) == PRECOPY_OK && version == 5);
    ROW(precopy_trace_version_after(&held, 2, 5, &version) == PRECOPY_OK && version == 0);
    ROW(precopy_trace_versions_after(&held, 4, versions, 5, &needed) == PRECOPY_OK && needed == 4);
    ROW(!memcmp(versions, after_four, sizeof versions));
    ROW(precopy_trace_versions_after(&held, UINT32_MAX, versions, 4, &needed) == PRECOPY_OK);
    ROW(!memcmp(versions, after_all, sizeof versions));
    needed = 9;
    ROW(precopy_trace_versions_after(&held, 0, versions, 3, &needed) == PRECOPY_SHORT_BUFFER && needed == 4);
    ROW(!memcmp(versions, after_all, sizeof versions));
    needed = 9;
    ROW(precopy_trace_versions_before(&held, 2500, versions, 5, &needed) == PRECOPY_OK && needed == 4);
    ROW(!memcmp(versions, before_last, sizeof versions));
    needed = 9;
    ROW(precopy_trace_versions_before(&held, 0, versions, 3, &needed) == PRECOPY_SHORT_BUFFER && needed == 4);
    ROW(!memcmp(versions, before_last, sizeof versions));
    ROW(precopy_trace_versions_before(&held, 2501, versions, 4, &needed) == PRECOPY_OK);
    ROW(!memcmp(versions, after_all, sizeof versions));
}

static void pages_at_stamps(void) {
    static const uint8_t first[16] = {1};
    uint8_t content[17];
    memset(content, 9, sizeof content);
    ROW(precopy_trace_page_at(&held, 0, 1, content, 17) == PRECOPY_OK);
    ROW(!memcmp(content, first, 16) && content[16] == 9);
    ROW(precopy_trace_page_at(&held, 1, 3, content, 16) == PRECOPY_OK && content[0] == 3 && content[15] == 2);
    ROW(precopy_trace_page_at(&held, 1, 5, content, 16) == PRECOPY_OK && content[0] == 0 && content[15] == 2);
    ROW(precopy_trace_page_at(&held, 1, 0, content, 16) == PRECOPY_OK && precopy_is_zero(content, 16));
    memset(content, 9, sizeof content);
    ROW(precopy_trace_page_at(&held, 1, 4, content, 16) == PRECOPY_NO_VERSION && content[0] == 9);
    ROW(precopy_trace_page_at(&held, 1, 6, content, 16) == PRECOPY_NO_VERSION && content[0] == 9);
    ROW(precopy_trace_page_at(&held, 4, 0, content, 16) == PRECOPY_NO_PAGE && content[0] == 9);
    ROW(precopy_trace_page_at(&held, 1, 3, content, 15) == PRECOPY_SHORT_BUFFER && content[0] == 9);
}

static void pages(void) {
    struct precopy_write writes[4] = {{0, 9, 9, 9}, {0, 9, 9, 9}, {0, 9, 9, 9}, {0, 9, 9, 9}};
    uint8_t memory[64] = {0}, wanted[64] = {0};
    size_t count = 9;
    ROW(precopy_trace_page_writes(&held, 1, writes, 2, &count) == PRECOPY_SHORT_BUFFER && count == 3);
    ROW(writes[0].size == 9);
    ROW(precopy_trace_page_writes(&held, 1, writes, 4, &count) == PRECOPY_OK && count == 3);
    ROW(writes[0].place == 2 && writes[0].tick == 5 && writes[0].offset == 15 && writes[0].size == 1);
    ROW(writes[1].place == 3 && writes[1].tick == 1200 && writes[1].offset == 0 && writes[1].size == 1);
    ROW(writes[2].place == 5 && writes[2].tick == 2500 && writes[2].offset == 0 && writes[3].size == 9);
    ROW(precopy_trace_page_writes(&held, 2, writes, 0, &count) == PRECOPY_OK && count == 0);
    ROW(precopy_trace_page_writes(&held, 4, writes, 4, &count) == PRECOPY_NO_PAGE && count == 0);
    wanted[0] = 1, wanted[31] = 2;
    ROW(precopy_trace_memory_step(&held, 0, 2, memory, 64) == PRECOPY_OK && !memcmp(memory, wanted, 64));
    ROW(precopy_trace_memory_step(&held, 2, 2, memory, 64) == PRECOPY_OK && !memcmp(memory, wanted, 64));
    wanted[16] = 3, wanted[50] = 4, wanted[51] = 5;
    ROW(precopy_trace_memory_step(&held, 2, 4, memory, 64) == PRECOPY_OK && !memcmp(memory, wanted, 64));
    ROW(precopy_trace_memory_step(&held, 4, 3, memory, 64) == PRECOPY_BACKWARDS);
    ROW(precopy_trace_memory_step(&held, 4, 5, memory, 63) == PRECOPY_MEMORY_LENGTH);
    ROW(!memcmp(memory, wanted, 64));
    wanted[16] = 0;
    ROW(precopy_trace_memory_step(&held, 4, UINT32_MAX, memory, 64) == PRECOPY_OK);
    ROW(!memcmp(memory, wanted, 64));
}

static void traces(void) {
    struct precopy_sizes sizes = {0, 0, 0};
    ROW(precopy_check_trace(trace, sizeof trace, &sizes, &record) == PRECOPY_OK && record == 9);
    ROW(sizes.shift == 4 && sizes.pages == 4 && sizes.writes == 5);
    ROW(precopy_check_trace(trace, 101, &sizes, &record) == PRECOPY_SHORT_RECORD && record == 4);
    ROW(precopy_check_trace(trace, 15, &sizes, &record) == PRECOPY_SHORT_HEADER && record == 4);
}

static void frames(void) {
    static const struct precopy_sizes sizes = {4, 2, 5};
    static const uint8_t page[16] = {0, 0, 0, 0, 0, 0, 0, 0, 0, 0, 0, 0, 0, 0, 0, 2}, zeros[16];
    /* Page 1 at stamp 5, and after it page 1 at stamp 3, zeros. */
    static const uint8_t stream[34] = {1, 0, 0, 0, 5, 0, 0, 0, 1, 0, 0, 0, 0, 0, 0, 0, 0,
                                       0, 0, 0, 0, 0, 0, 0, 2, 1, 0, 0, 0, 3, 0, 0, 0, 0};
    uint8_t text[25], content[16];
    struct precopy_frame frame;
    size_t needed = 0;
    ROW(precopy_encode_frame(&sizes, 1, 5, page, 16, text, 25, &needed) == PRECOPY_OK && needed == 25);
    ROW(!memcmp(text, stream, 25));
    ROW(precopy_encode_frame(&sizes, 1, 3, zeros, 16, text, 25, &needed) == PRECOPY_OK && needed == 9);
    ROW(!memcmp(text, stream + 25, 9));
    ROW(precopy_encode_frame(&sizes, 2, 5, page, 16, text, 25, &needed) == PRECOPY_FRAME_PAGE);
    ROW(precopy_encode_frame(&sizes, 1, 6, page, 16, text, 25, &needed) == PRECOPY_FRAME_STAMP);
    ROW(precopy_encode_frame(&sizes, 1, 5, page, 15, text, 25, &needed) == PRECOPY_PAGE_LENGTH);
    ROW(precopy_decode_frame(&sizes, stream, 34, &frame, content, 16) == PRECOPY_OK);
    ROW(frame.page == 1 && frame.stamp == 5 && frame.size == 25 && !memcmp(content, page, 16));
    ROW(precopy_is_zero(zeros, 16) && precopy_is_zero(zeros, 0) && !precopy_is_zero(page, 16));

    uint8_t memory[32] = {0};
    struct precopy_page pages[2] = {{0, 0}, {0, 0}};
    struct precopy_taken taken = {9, 9};
    size_t missing = 9;
    ROW(precopy_accept(&sizes, stream, 34, memory, 32, pages, 2, &taken) == PRECOPY_OK);
    ROW(taken.frames == 2 && taken.bytes == 34 && !memcmp(memory + 16, page, 16));
    ROW(pages[0].came == 0 && pages[1].came == 1 && pages[1].stamp == 5);
    ROW(precopy_missing(pages, 2, &missing) == PRECOPY_PAGE_MISSING && missing == 0);
    ROW(precopy_accept(&sizes, stream, 33, memory, 32, pages, 2, &taken) == PRECOPY_FRAME_SHORT);
    ROW(taken.frames == 1 && taken.bytes == 25);
    ROW(precopy_accept(&sizes, stream, 34, memory, 31, pages, 2, &taken) == PRECOPY_MEMORY_LENGTH);
    ROW(precopy_accept(&sizes, stream, 34, memory, 32, pages, 1, &taken) == PRECOPY_PAGE_COUNT);
    /* In the other order the page at the lower stamp comes first, and gives way. */
    memset(memory, 0, sizeof memory);
    memset(pages, 0, sizeof pages);
    ROW(precopy_accept(&sizes, stream + 25, 9, memory, 32, pages, 2, &taken) == PRECOPY_OK && pages[1].stamp == 3);
    ROW(precopy_accept(&sizes, stream, 25, memory, 32, pages, 2, &taken) == PRECOPY_OK && pages[1].stamp == 5);
    ROW(!memcmp(memory + 16, page, 16));
    ROW(precopy_missing(pages + 1, 1, &missing) == PRECOPY_OK);
}

/* Frames of pages 0 to 3 and of page 1 again, which make the memory before tick 2500, after three writes. They begin at
 * bytes 0, 25, 50, 59 and 68. After them comes the older frame of page 1 once more. */
static const uint8_t sent[118] = {
    0, 0, 0, 0, 1, 0, 0, 0, 1, 1, 0, 0, 0, 0, 0, 0, 0, 0, 0, 0, 0, 0, 0, 0, 0, /* */
    1, 0, 0, 0, 2, 0, 0, 0, 1, 0, 0, 0, 0, 0, 0, 0, 0, 0, 0, 0, 0, 0, 0, 0, 2, /* */
    2, 0, 0, 0, 0, 0, 0, 0, 0, 3, 0, 0, 0, 0, 0, 0, 0, 0,                      /* */
    1, 0, 0, 0, 3, 0, 0, 0, 1, 3, 0, 0, 0, 0, 0, 0, 0, 0, 0, 0, 0, 0, 0, 0, 2, /* */
    1, 0, 0, 0, 2, 0, 0, 0, 1, 0, 0, 0, 0, 0, 0, 0, 0, 0, 0, 0, 0, 0, 0, 0, 2,
};

static int is_frame(const struct precopy_finding *found, size_t stream, size_t frame, size_t offset, uint32_t page,
                    uint32_t stamp, uint32_t wanted) {
    return found->stream == stream && found->frame == frame && found->offset == offset && found->page == page
           && found->stamp == stamp && found->wanted == wanted && found->missing == 0 && found->tick == 0;
}

static int is_page(const struct precopy_finding *found, uint32_t page, uint32_t stamp, uint32_t wanted,
                   uint32_t missing, uint64_t tick) {
    return found->stream == 0 && found->frame == 0 && found->offset == 0 && found->page == page && found->stamp == stamp
           && found->wanted == wanted && found->missing == missing && found->tick == tick;
}

static void streams(void) {
    static const size_t right[] = {93}, two[] = {93, 25}, late[] = {118}, cut[] = {92}, four[] = {68}, few[] = {0, 68};
    struct precopy_finding found = {9, 9, 9, 9, 9, 9, 9, 9};
    uint32_t count = 9;
    uint8_t other[93];
    ROW(precopy_trace_writes_before(&held, 2500, &count) == PRECOPY_OK && count == 3);
    ROW(precopy_trace_writes_before(&held, 5, &count) == PRECOPY_OK && count == 1);
    ROW(precopy_trace_writes_before(&held, 1ull << 40, &count) == PRECOPY_OK && count == 5);
    ROW(precopy_check_streams(trace, sizeof trace, 3, sent, 93, right, 1, &found, &record) == PRECOPY_OK);
    ROW(precopy_check_streams(trace, sizeof trace, 3, sent, 118, two, 2, &found, &record) == PRECOPY_OK
        && found.offset == 9);
    ROW(precopy_check_streams(trace, sizeof trace, 3, sent, 92, right, 1, &found, &record) == PRECOPY_STREAM_SIZES);
    ROW(precopy_check_streams(trace, sizeof trace, 3, sent, 93, cut, 1, &found, &record) == PRECOPY_STREAM_SIZES);
    ROW(found.stream == 9 && found.tick == 9);
    ROW(precopy_check_streams(trace, sizeof trace, 3, sent, 118, late, 1, &found, &record) == PRECOPY_OLDER);
    ROW(is_frame(&found, 0, 5, 93, 1, 2, 3));
    ROW(precopy_check_streams(trace, sizeof trace, 3, sent, 92, cut, 1, &found, &record) == PRECOPY_FRAME_SHORT);
    ROW(is_frame(&found, 0, 4, 68, 0, 0, 0));
    ROW(precopy_check_streams(trace, sizeof trace, 2, sent, 93, right, 1, &found, &record) == PRECOPY_AFTER_STOP);
    ROW(is_frame(&found, 0, 4, 68, 1, 3, 2));
    memcpy(other, sent, sizeof other);
    other[92] = 7;
    ROW(precopy_check_streams(trace, sizeof trace, 3, other, 93, right, 1, &found, &record) == PRECOPY_OTHER_BYTES);
    ROW(is_frame(&found, 0, 4, 68, 1, 3, 3));
    other[72] = 4;
    ROW(precopy_check_streams(trace, sizeof trace, 3, other, 93, right, 1, &found, &record) == PRECOPY_NO_VERSION);
    ROW(is_frame(&found, 0, 4, 68, 1, 4, 3));
    ROW(precopy_check_streams(trace, sizeof trace, 3, sent, 68, four, 1, &found, &record) == PRECOPY_PAGE_BEHIND);
    ROW(is_page(&found, 1, 2, 3, 3, 1200));
    ROW(precopy_check_streams(trace, sizeof trace, 3, sent + 25, 68, few, 2, &found, &record) == PRECOPY_PAGE_MISSING);
    ROW(is_page(&found, 0, 0, 1, 1, 0));
}

/* The same streams in two pieces, over an open trace: first alone, and then with another stream between them. */
static void pieces(void) {
    struct precopy_finding found = {9, 9, 9, 9, 9, 9, 9, 9};
    size_t needed;
    for (size_t number = 0; number < 2 * 94; number++) {
        size_t cut = number % 94;
        struct precopy_progress progress = {0, 0, 0, 3}, other = {1, 0, 0, 3};
        uint32_t last[4] = {0}, second[4] = {0}, greatest[4] = {0};
        uint8_t memory[64] = {0}, wanted[64];
        ROW(precopy_trace_check_piece(&held, sent, cut, &progress, last, 4, greatest, 4, memory, 64, &found)
            == PRECOPY_OK);
        uint32_t ends = precopy_trace_check_pages(&held, &progress, greatest, 4, &found);
        size_t taken = progress.bytes;
        ROW(taken <= cut && (ends == PRECOPY_OK) == (progress.frames == 5));
        ROW((precopy_end_stream(&progress, cut - taken, &found) == PRECOPY_OK) == (taken == cut));
        ROW(taken == cut || is_frame(&found, 0, progress.frames, taken, 0, 0, 0));
        if (number >= 94) {
            ROW(precopy_trace_check_piece(&held, sent, 93, &other, second, 4, greatest, 4, memory, 64, &found)
                == PRECOPY_OK);
            ROW(other.bytes == 93);
        }
        ROW(precopy_trace_check_piece(&held, sent + taken, 118 - taken, &progress, last, 4, greatest, 4, memory, 64,
                                      &found)
            == PRECOPY_OLDER);
        ROW(is_frame(&found, 0, 5, 93, 1, 2, 3) && progress.bytes == taken);
        ROW(precopy_trace_check_pages(&held, &progress, greatest, 4, &found) == PRECOPY_OK);
        ROW(precopy_trace_memory_before(&held, 2500, wanted, 64, &needed) == PRECOPY_OK);
        ROW(!memcmp(memory, wanted, sizeof memory) && greatest[0] == 2 && greatest[1] == 4 && greatest[3] == 1);
    }
    struct precopy_progress progress = {0, 0, 0, 3};
    uint32_t last[4] = {0}, greatest[5] = {0};
    uint8_t memory[64] = {0}, other[25];
    ROW(precopy_trace_check_piece(&held, sent, 93, &progress, last, 4, greatest, 4, memory, 63, &found)
        == PRECOPY_MEMORY_LENGTH);
    ROW(precopy_trace_check_piece(&held, sent, 93, &progress, last, 3, greatest, 4, memory, 64, &found)
        == PRECOPY_PAGE_COUNT);
    ROW(precopy_trace_check_piece(&held, sent, 93, &progress, last, 4, greatest, 5, memory, 64, &found)
        == PRECOPY_PAGE_COUNT);
    ROW(precopy_trace_check_pages(&held, &progress, greatest, 3, &found) == PRECOPY_PAGE_COUNT);
    ROW(precopy_trace_check_pages(&held, &progress, greatest, 4, &found) == PRECOPY_PAGE_MISSING);
    ROW(is_page(&found, 0, 0, 1, 1, 0));
    ROW(precopy_trace_check_piece(&held, sent, 68, &progress, last, 4, greatest, 4, memory, 64, &found) == PRECOPY_OK);
    ROW(precopy_trace_check_pages(&held, &progress, greatest, 4, &found) == PRECOPY_PAGE_BEHIND);
    ROW(is_page(&found, 1, 2, 3, 3, 1200));
    memcpy(other, sent + 68, sizeof other);
    other[24] = 7;
    ROW(precopy_trace_check_piece(&held, other, 25, &progress, last, 4, greatest, 4, memory, 64, &found)
        == PRECOPY_OTHER_BYTES);
    ROW(is_frame(&found, 0, 4, 68, 1, 3, 3) && memory[16] == 0 && memory[31] == 2);
}

/* Whether a sentence was written, and nothing behind it. */
static int is_text(uint32_t status, const uint8_t *text, size_t length, size_t needed, const char *wanted) {
    if (status != PRECOPY_OK || needed != strlen(wanted) || memcmp(text, wanted, needed)) {
        return 0;
    }
    for (size_t at = needed; at < length; at++) {
        if (text[at] != 9) {
            return 0;
        }
    }
    return 1;
}

static int tells_refusal(uint32_t status, uint32_t of_record, const char *wanted) {
    uint8_t text[PRECOPY_TEXT_BOUND];
    size_t needed = 0;
    memset(text, 9, sizeof text);
    uint32_t told = precopy_refusal_text(status, of_record, text, sizeof text, &needed);
    return is_text(told, text, sizeof text, needed, wanted);
}

static int tells_finding(uint32_t status, struct precopy_finding found, const char *wanted) {
    uint8_t text[PRECOPY_TEXT_BOUND];
    size_t needed = 0, again = 0;
    memset(text, 9, sizeof text);
    if (precopy_finding_text(status, &found, text, strlen(wanted) - 1, &needed) != PRECOPY_SHORT_BUFFER
        || needed != strlen(wanted) || text[0] != 9) {
        return 0;
    }
    uint32_t told = precopy_finding_text(status, &found, text, sizeof text, &again);
    return is_text(told, text, sizeof text, again, wanted);
}

static void sentences(void) {
    struct precopy_finding old = {0, 5, 93, 0, 1, 2, 3, 0}, behind = {0, 0, 0, 1200, 1, 2, 3, 3};
    struct precopy_finding cut = {1, 4, 68, 0, 0, 0, 0, 0}, never = {0, 0, 0, 0, 7, 0, 0, 0}, most;
    memset(&most, 0xFF, sizeof most);
    ROW(tells_refusal(PRECOPY_SHORT_HEADER, 7, "trace E1: it has fewer than the 16 bytes of a header"));
    ROW(tells_refusal(PRECOPY_SHORT_RECORD, 7, "trace E8: it ends within this record (record 7)"));
    ROW(tells_refusal(PRECOPY_OUT_OF_PAGE, 0, "trace E13: the write goes beyond its page (record 0)"));
    ROW(tells_refusal(PRECOPY_TRAILING_BYTES, 7, "trace E14: bytes follow the last record"));
    ROW(tells_refusal(PRECOPY_OK, 7, "done"));
    ROW(tells_refusal(1234, 7, "no status of this library"));
    ROW(tells_finding(PRECOPY_OLDER, old,
                      "stream 0, frame 5, byte 93: page 1 at 2 for 3, a frame of the page with a "
                      "greater stamp came before in the stream"));
    ROW(tells_finding(PRECOPY_FRAME_SHORT, cut, "stream 1, frame 4, byte 68: frame F1: a frame is cut off"));
    ROW(tells_finding(PRECOPY_PAGE_BEHIND, behind,
                      "at the stop: page 1 at 2 for 3, a page is not at its version at "
                      "the stop; it lacks write 3, at tick 1200"));
    ROW(tells_finding(PRECOPY_PAGE_MISSING, never, "at the stop: page 7 at 0 for 0, a page did not come"));
    ROW(tells_finding(PRECOPY_NO_MEMORY, old, "memory ran out"));
    for (uint32_t status = 0; status < 100; status++) {
        uint8_t text[PRECOPY_TEXT_BOUND];
        size_t needed = sizeof text + 1;
        ROW(precopy_finding_text(status, &most, text, sizeof text, &needed) == PRECOPY_OK && needed <= sizeof text);
        ROW(precopy_refusal_text(status, UINT32_MAX, text, sizeof text, &needed) == PRECOPY_OK);
    }
}

/* A trace that is written: of 4 pages of 16 bytes, of which page 1 is written at tick 5 and released at tick 9. */
static void recordings(void) {
    static const uint8_t wanted[49] = {'P', 'C', 'W', 'T', 2, 4, 0, 0, 4, 0, 0, 0,  2, 0, 0, 0, 5,
                                       0,   0,   0,   0,   0, 0, 0, 1, 0, 0, 0, 15, 0, 1, 0, 2, 9,
                                       0,   0,   0,   0,   0, 0, 0, 1, 0, 0, 0, 0,  0, 0, 0};
    static const uint8_t two[2] = {2, 2};
    uint8_t made[50];
    struct precopy_recording recording = {9, 9, 9, 9, 9};
    struct precopy_sizes sizes;
    memset(made, 9, sizeof made);
    ROW(precopy_record_begin(made, 50, 3, 4, &recording) == PRECOPY_BAD_SHIFT && recording.length == 9);
    ROW(precopy_record_begin(made, 15, 260, 4, &recording) == PRECOPY_BAD_SHIFT && made[0] == 9);
    ROW(precopy_record_begin(made, 15, 4, 0, &recording) == PRECOPY_BAD_PAGES && made[0] == 9);
    ROW(precopy_record_begin(made, 15, 4, 4, &recording) == PRECOPY_SHORT_BUFFER && made[0] == 9);
    ROW(precopy_record_begin(made, 50, 4, 4, &recording) == PRECOPY_OK && recording.length == 16 && made[16] == 9);
    ROW(precopy_check_trace(made, recording.length, &sizes, &record) == PRECOPY_OK && sizes.writes == 0);
    ROW(precopy_record_write(made, 32, &recording, 5, 1, 15, two, 1) == PRECOPY_SHORT_BUFFER && made[16] == 9);
    ROW(precopy_record_write(made, 50, &recording, 5, 1, 15, two, 2) == PRECOPY_OUT_OF_PAGE && made[16] == 9);
    ROW(precopy_record_write(made, 50, &recording, 5, 1, 0, two, 0) == PRECOPY_EMPTY_WRITE && made[16] == 9);
    ROW(precopy_record_write(made, 50, &recording, 5, 4, 65551, two, 1) == PRECOPY_PAGE_OUT_OF_RANGE);
    ROW(precopy_record_write(made, 50, &recording, 5, 1, 65551, two, 1) == PRECOPY_OUT_OF_PAGE && made[16] == 9);
    ROW(precopy_record_write(made, 50, &recording, 5, 1, 15, two, 1) == PRECOPY_OK && recording.length == 33);
    ROW(recording.writes == 1 && recording.last_tick == 5 && recording.pages == 4 && recording.shift == 4);
    ROW(precopy_check_trace(made, recording.length, &sizes, &record) == PRECOPY_OK && sizes.writes == 1);
    ROW(precopy_record_release(made, 50, &recording, 4, 1) == PRECOPY_TICK_ORDER && recording.length == 33);
    ROW(precopy_record_release(made, 50, &recording, 1ull << 40, 1) == PRECOPY_TICK_TOO_LARGE && made[33] == 9);
    ROW(precopy_record_release(made, 48, &recording, 9, 1) == PRECOPY_SHORT_BUFFER && made[33] == 9);
    ROW(precopy_record_release(made, 50, &recording, 9, 1) == PRECOPY_OK && recording.length == 49);
    ROW(!memcmp(made, wanted, 49) && made[49] == 9 && recording.writes == 2 && recording.last_tick == 9);
    recording.writes = 1 << 20;
    ROW(precopy_record_release(made, 50, &recording, 4, 1) == PRECOPY_TOO_MANY_WRITES && !memcmp(made, wanted, 49));
    recording.length = (1 << 28) - 15;
    ROW(precopy_record_release(made, 50, &recording, 4, 1) == PRECOPY_TOO_LONG && !memcmp(made, wanted, 49));
}

int main(void) {
    ROW(precopy_abi() == PRECOPY_ABI);
    open_held();
    const struct precopy_trace before = held;
    uint32_t words[19];
    memcpy(words, index_words, sizeof words);
    streams();
    pieces();
    plans();
    reports();
    sweeps();
    sizes_of_settings();
    predictions();
    agreements();
    forecasts();
    shares();
    best_starts();
    numbers_of_starts();
    amounts();
    looks();
    questions();
    memories();
    versions_of_pages();
    pages_at_stamps();
    pages();
    open_traces();
    traces();
    frames();
    sentences();
    recordings();
    /* No call changes an open trace. Its bytes are constant. */
    ROW(!memcmp(&before, &held, sizeof held) && !memcmp(words, index_words, sizeof words));
    printf("%d passed, %d failed\n", passed, failed);
    return failed != 0;
}
