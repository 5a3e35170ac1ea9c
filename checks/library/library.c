/*
 * Calls the library for C over one trace, for checks/library, from which it is compiled with the sanitizers.
 *
 *     library TRACE TICK
 *
 * fences.c has guard pages round each buffer. malloc and realloc are wrapped: one of them can be refused, and what is
 * not given back is counted. It prints what is wrong, and at last how many trials there were.
 */
#define _GNU_SOURCE
#include "calls.h"

#include <pthread.h>
#include <stdatomic.h>
#include <stdio.h>
#include <stdlib.h>
#include <string.h>

#define THREADS 8
#define TURNS 20
#define MOST_MEMORY ((size_t)1 << 22)
#define MOST_CUTS 400

static int passed, failed;

static void expect(int holds, const char *what, const char *detail) {
    if (holds) {
        passed++;
    } else {
        failed++;
        printf("FAILED %s: %s\n", what, detail);
    }
}

/* ---- allocations */

static _Atomic long asked, live;
static _Atomic long refused_at; /* the number of the request that is refused; 0 for none */

void *__real_realloc(void *old, size_t size);

static int is_refused(void) { return atomic_fetch_add(&asked, 1) + 1 == atomic_load(&refused_at); }

void *__wrap_malloc(size_t size) {
    void *made = is_refused() ? NULL : __real_malloc(size);
    if (made) {
        atomic_fetch_add(&live, 1);
    }
    return made;
}

void *__wrap_realloc(void *old, size_t size) {
    void *made = is_refused() ? NULL : __real_realloc(old, size);
    if (made && !old) {
        atomic_fetch_add(&live, 1);
    }
    return made;
}

void __wrap_free(void *old) {
    if (old) {
        atomic_fetch_sub(&live, 1);
    }
    __real_free(old);
}

/* ---- trials of the calls */

/* Each call that writes through a buffer or allocates: its name, the lengths that it writes, how long an element of its
 * buffer is, and whether it may take memory. */
struct trial {
    const char *name;
    call_of *call;
    size_t room, told, element;
    int takes_memory;
};

static struct outputs outputs_of(size_t room, size_t told) {
    struct outputs out = {room_of(room), room_of(told), room_of(sizeof(uint32_t))};
    return out;
}

static void drop_outputs(struct outputs *out) {
    drop(&out->room);
    drop(&out->told);
    drop(&out->record);
}

/* Refuses one request for memory after the other, until none is left. */
static void try_refusals(const struct guest *guest, const struct trial *trial) {
    for (long number = 1;; number++) {
        struct outputs out = outputs_of(trial->room, trial->told);
        atomic_store(&asked, 0);
        atomic_store(&refused_at, number);
        uint32_t status = trial->call(guest, &out);
        int came = atomic_load(&asked) >= number;
        atomic_store(&refused_at, 0);
        expect(!came || trial->takes_memory, trial->name, "it takes memory");
        expect(atomic_load(&live) == 0, trial->name, "memory is not given back");
        expect(is_untouched(&out.record, 0), trial->name, "a record of a trace that is not refused");
        if (came) {
            expect(status == PRECOPY_NO_MEMORY, trial->name, "a refused request for memory is not told");
            expect(is_untouched(&out.room, 0) && is_untouched(&out.told, 0), trial->name, "it writes without memory");
        } else {
            expect(status == PRECOPY_OK && is_untouched(&out.room, out.room.length), trial->name, "it refuses");
        }
        drop_outputs(&out);
        if (!came) {
            return;
        }
    }
}

/* Buffers of no length, one element too short, and longer than needed. Memory that is brought on has one length, which
 * try_steps tries. */
static void try_lengths(const struct guest *guest, const struct trial *trial) {
    if (!trial->room || trial->call == memory_step) {
        return;
    }
    size_t lengths[] = {0, trial->room - trial->element};
    for (int i = 0; i < 2; i++) {
        struct outputs out = outputs_of(lengths[i], trial->told);
        uint32_t status = trial->call(guest, &out);
        expect(status == PRECOPY_SHORT_BUFFER && is_untouched(&out.room, 0), trial->name, "of a short buffer");
        size_t needed = 0;
        int tells = trial->call != decode && trial->call != sweep && trial->call != page_at;
        if (tells) {
            memcpy(&needed, out.told.at, sizeof needed);
        }
        expect(!tells || needed * trial->element == trial->room, trial->name, "the length that is needed");
        expect(tells || is_untouched(&out.told, 0), trial->name, "what is told of a short buffer");
        drop_outputs(&out);
    }
    struct outputs out = outputs_of(trial->room + 4 * trial->element, trial->told);
    uint32_t status = trial->call(guest, &out);
    expect(status == PRECOPY_OK && is_untouched(&out.room, trial->room), trial->name, "of a long buffer");
    drop_outputs(&out);
}

/* ---- threads */

struct turn {
    const struct guest *guest;
    const struct trial *trial;
    struct outputs whole; /* what one thread wrote on its own */
    _Atomic int differing;
};

static void *take_turns(void *words) {
    struct turn *turn = words;
    for (int i = 0; i < TURNS; i++) {
        struct outputs out = outputs_of(turn->trial->room, turn->trial->told);
        uint32_t status = turn->trial->call(turn->guest, &out);
        int same = !memcmp(out.room.at, turn->whole.room.at, out.room.length)
                   && !memcmp(out.told.at, turn->whole.told.at, out.told.length);
        if (status != PRECOPY_OK || !same) {
            atomic_fetch_add(&turn->differing, 1);
        }
        drop_outputs(&out);
    }
    return NULL;
}

/* All calls at once, each of them by as many threads. */
static void try_threads(const struct guest *guest, const struct trial *trials, size_t count) {
    pthread_t threads[THREADS];
    struct turn turns[THREADS];
    for (size_t first = 0; first < count; first++) {
        for (int i = 0; i < THREADS; i++) {
            const struct trial *trial = &trials[(first + (size_t)i / 2) % count];
            turns[i] = (struct turn){guest, trial, outputs_of(trial->room, trial->told), 0};
            trial->call(guest, &turns[i].whole);
        }
        for (int i = 0; i < THREADS; i++) {
            if (pthread_create(&threads[i], NULL, take_turns, &turns[i])) {
                exit(3);
            }
        }
        for (int i = 0; i < THREADS; i++) {
            pthread_join(threads[i], NULL);
            expect(!turns[i].differing, turns[i].trial->name, "beside other threads it writes something else");
            drop_outputs(&turns[i].whole);
        }
    }
    expect(atomic_load(&live) == 0, "threads", "memory is not given back");
}

/* ---- streams */

/* Appends the frames of some memory, all at one stamp. Returns how long the stream is then. */
static size_t append_frames(uint8_t *stream, size_t length, const struct precopy_sizes *sizes, const uint8_t *bytes,
                            uint32_t stamp) {
    size_t size = (size_t)1 << sizes->shift;
    for (uint32_t page = 0; page < sizes->pages; page++) {
        size_t needed = 0;
        uint32_t status =
            precopy_encode_frame(sizes, page, stamp, bytes + page * size, size, stream + length, size + 9, &needed);
        expect(status == PRECOPY_OK, "encode_frame", "of a page");
        length += needed;
    }
    return length;
}

/* Notes the place of the last write to each page of a trace. */
static void last_places(const struct room *trace, uint32_t writes, uint32_t *places) {
    size_t at = 16;
    for (uint32_t place = 1; place <= writes; place++) {
        uint32_t page;
        memcpy(&page, trace->at + at + 8, sizeof page);
        places[page] = place;
        at += 16 + trace->at[at + 14] + ((size_t)trace->at[at + 15] << 8);
    }
}

/* Makes two streams of a guest's last memory, in which all is right, and the words of the stamps that they leave. */
static void make_streams(struct guest *guest, const struct precopy_sizes *sizes, const uint8_t *whole) {
    size_t size = (size_t)1 << sizes->shift, lengths[2] = {0, 0}, length = 0;
    uint8_t *stream = __real_malloc(sizes->pages * (size + 9));
    uint32_t *places = __real_malloc(sizes->pages * sizeof *places);
    memset(places, 0, sizes->pages * sizeof *places);
    last_places(&guest->trace, sizes->writes, places);
    for (uint32_t page = 0; page < sizes->pages; page++) {
        size_t needed = 0;
        uint32_t status = precopy_encode_frame(sizes, page, places[page], whole + page * size, size, stream + length,
                                               size + 9, &needed);
        expect(status == PRECOPY_OK, "encode_frame", "of a page of a stream");
        lengths[page > sizes->pages / 2] += needed;
        length += needed;
    }
    guest->streams = input_of(stream, length);
    guest->lengths = input_of(lengths, sizeof lengths);
    guest->stamp = places[0];
    for (uint32_t page = 0; page < sizes->pages; page++) {
        places[page]++;
    }
    guest->greatest = input_of(places, sizes->pages * sizeof *places);
    __real_free(stream);
    __real_free(places);
}

/* Takes a stream that is cut at a place, from two inputs that end there, into flat memory. */
static void take_cut(const struct precopy_sizes *sizes, const uint8_t *stream, size_t length, size_t cut,
                     const uint8_t *whole) {
    size_t bytes = (size_t)sizes->pages << sizes->shift;
    struct room flat = room_of(bytes), states = room_of(sizes->pages * sizeof(struct precopy_page));
    struct precopy_page *pages = (struct precopy_page *)states.at;
    memset(flat.at, 0, flat.length);
    memset(states.at, 0, states.length);
    struct precopy_taken taken = {0, 0};
    struct room piece = input_of(stream, cut);
    uint32_t status = precopy_accept(sizes, piece.at, cut, flat.at, bytes, pages, sizes->pages, &taken);
    int good = taken.bytes <= cut && status == (taken.bytes < cut ? PRECOPY_FRAME_SHORT : PRECOPY_OK);
    expect(good, "accept", "of the front of a stream");
    drop(&piece);
    piece = input_of(stream + taken.bytes, length - taken.bytes);
    status = precopy_accept(sizes, piece.at, piece.length, flat.at, bytes, pages, sizes->pages, &taken);
    expect(status == PRECOPY_OK && !memcmp(flat.at, whole, bytes), "accept", "of a stream in two pieces");
    size_t missing;
    expect(precopy_missing(pages, sizes->pages, &missing) == PRECOPY_OK, "missing", "of a whole stream");
    drop(&piece);
    drop(&flat);
    drop(&states);
}

/* Memory that is brought on in two steps, backwards, and of a wrong length. */
static void try_steps(const struct guest *guest, const struct precopy_sizes *sizes, const uint8_t *whole) {
    const struct precopy_trace *held = &guest->held;
    size_t bytes = (size_t)sizes->pages << sizes->shift;
    uint32_t half = sizes->writes / 2;
    struct room room = room_of(bytes), longer = room_of(bytes + 1);
    expect(precopy_trace_memory_step(held, 1, 0, room.at, bytes - 1) == PRECOPY_BACKWARDS, "trace_memory_step",
           "backwards");
    expect(precopy_trace_memory_step(held, 0, half, room.at, bytes - 1) == PRECOPY_MEMORY_LENGTH, "trace_memory_step",
           "of short memory");
    uint32_t status = precopy_trace_memory_step(held, 0, half, longer.at, bytes + 1);
    expect(status == PRECOPY_MEMORY_LENGTH && is_untouched(&longer, 0), "trace_memory_step", "of long memory");
    expect(is_untouched(&room, 0), "trace_memory_step", "that is refused");
    memset(room.at, 0, bytes);
    status = precopy_trace_memory_step(held, 0, half, room.at, bytes);
    expect(status == PRECOPY_OK, "trace_memory_step", "to the half");
    status = precopy_trace_memory_step(held, half, sizes->writes, room.at, bytes);
    expect(status == PRECOPY_OK && !memcmp(room.at, whole, bytes), "trace_memory_step", "to the end");
    drop(&room);
    drop(&longer);
}

/* Calls over the bytes of a trace and over the trace that is open answer the same. */
static void try_alike(const struct guest *guest, call_of *of_bytes, call_of *of_open, size_t room, size_t told,
                      const char *what) {
    struct outputs one = outputs_of(room, told), other = outputs_of(room, told);
    expect(of_bytes(guest, &one) == PRECOPY_OK && of_open(guest, &other) == PRECOPY_OK, what, "of an open trace");
    int same = !memcmp(one.room.at, other.room.at, room) && !memcmp(one.told.at, other.told.at, told);
    expect(same, what, "over bytes and over an open trace it answers differently");
    drop_outputs(&one);
    drop_outputs(&other);
}

static void try_streams(const struct precopy_sizes *sizes, const uint8_t *earlier, const uint8_t *whole) {
    size_t most = 2 * sizes->pages * (((size_t)1 << sizes->shift) + 9) + ((size_t)1 << sizes->shift) + 9;
    uint8_t *stream = __real_malloc(most);
    /* The last memory comes first, and then what is older, where there was a write. */
    size_t length = append_frames(stream, 0, sizes, whole, sizes->writes);
    if (sizes->writes) {
        length = append_frames(stream, length, sizes, earlier, 0);
    }
    size_t step = length / MOST_CUTS + 1;
    for (size_t cut = 0; cut <= length; cut += step) {
        take_cut(sizes, stream, length, cut, whole);
    }
    __real_free(stream);
}

/* ---- one trace */

static void drop_guest(struct guest *guest) {
    struct room *rooms[] = {&guest->trace,   &guest->settings, &guest->cases, &guest->question,
                            &guest->starts,  &guest->sizes,    &guest->page,  &guest->stream,
                            &guest->streams, &guest->lengths,  &guest->words, &guest->greatest};
    for (size_t i = 0; i < sizeof rooms / sizeof *rooms; i++) {
        drop(rooms[i]);
    }
}

static struct precopy_settings settings_of(uint64_t min, uint64_t max, uint64_t threshold, uint32_t skip) {
    struct precopy_settings settings = PRECOPY_SETTINGS_DEFAULT;
    settings.min = min, settings.max = max, settings.threshold = threshold, settings.skip = skip;
    return settings;
}

/* What is asked of a guest of which every third page was recorded: by Clark's rounds if these are odd in number. */
static struct precopy_question question_of(uint64_t size, uint64_t pages) {
    struct precopy_question question = PRECOPY_QUESTION_DEFAULT;
    question.link = 3 * 4000 * size, question.downtime = 1000, question.page = size;
    question.sampled = pages, question.guest = 3 * pages, question.clark = pages % 2;
    return question;
}

/* Each call over a trace that is refused: the same number and record, and nothing else written. */
static void try_refused(const struct guest *guest, uint32_t status, const struct room *record) {
    call_of *calls[] = {plan, report, memory, check_streams, trace_open};
    for (size_t i = 0; i < sizeof calls / sizeof *calls; i++) {
        struct outputs out = outputs_of(1920, sizeof(struct precopy_prediction) + sizeof(struct precopy_errors));
        uint32_t told = calls[i](guest, &out);
        expect(told == status && is_untouched(&out.room, 0) && is_untouched(&out.told, 0), "a refused trace", "a call");
        expect(!memcmp(out.record.at, record->at, record->length), "a refused trace", "its record");
        drop_outputs(&out);
    }
}

/* Opens the trace of a guest over as many words as its index has. Returns how many bytes these are. */
static size_t open_guest(struct guest *guest) {
    const struct room *trace = &guest->trace;
    size_t needed = 0;
    uint32_t record = 9, status;
    status = precopy_trace_open(trace->at, trace->length, NULL, 0, &guest->held, &needed, &record);
    expect(status == PRECOPY_SHORT_BUFFER, "trace_open", "over no words");
    guest->words = room_of(needed * sizeof(uint32_t));
    status =
        precopy_trace_open(trace->at, trace->length, (void *)guest->words.at, needed, &guest->held, &needed, &record);
    expect(status == PRECOPY_OK && record == 9, "trace_open", "over enough words");
    return needed * sizeof(uint32_t);
}

static void try_all(struct guest *guest, const struct precopy_sizes *sizes) {
    size_t bytes = (size_t)sizes->pages << sizes->shift, size = (size_t)1 << sizes->shift;
    size_t row = sizeof(struct precopy_write), word = sizeof(uint32_t), versions = sizes->pages * word;
    struct outputs whole = outputs_of(bytes, sizeof(size_t)), earlier = outputs_of(bytes, sizeof(size_t));
    size_t index = open_guest(guest);
    struct room words = input_of(guest->words.at, index),
                bytes_of_trace = input_of(guest->trace.at, guest->trace.length);
    struct precopy_trace opened = guest->held;
    expect(memory(guest, &whole) == PRECOPY_OK && memory_before(guest, &earlier) == PRECOPY_OK, "memory", "of a trace");
    uint8_t frame[9 + 4096];
    size_t needed = 0, text = 0, count = 0, writes = 0;
    struct precopy_question question = question_of(size, sizes->pages);
    drop(&guest->question);
    guest->question = input_of(&question, sizeof question);
    guest->page = input_of(whole.room.at, size);
    uint32_t status = precopy_encode_frame(sizes, 0, 0, guest->page.at, size, frame, sizeof frame, &needed);
    expect(status == PRECOPY_OK, "encode_frame", "of page 0");
    guest->stream = input_of(frame, needed);
    make_streams(guest, sizes, whole.room.at);
    struct outputs none = outputs_of(0, sizeof(size_t));
    report(guest, &none);
    memcpy(&text, none.told.at, sizeof text);
    expect(text <= PRECOPY_REPORT_BOUND(guest->trace.length), "report", "a bound of its length");
    rounds(guest, &none);
    memcpy(&count, none.told.at, sizeof count);
    page_writes(guest, &none);
    memcpy(&writes, none.told.at, sizeof writes);
    size_t sums = sizeof(struct precopy_sums), round = sizeof(struct precopy_round);
    size_t errors = sizeof(struct precopy_errors), found = sizeof(struct precopy_finding);
    struct trial trials[] = {
        {"check_trace", check_trace, 0, sizeof(struct precopy_sizes), 1, 0},
        {"plan", plan, 0, sums, 1, 1},
        {"report", report, text, sizeof(size_t), 1, 1},
        {"memory", memory, bytes, sizeof(size_t), 1, 0},
        {"check_streams", check_streams, 0, found, 1, 1},
        {"trace_open", trace_open, index, sizeof(size_t), word, 0},
        {"trace_plan", trace_plan, 0, sums, 1, 1},
        {"trace_report", trace_report, text, sizeof(size_t), 1, 1},
        {"trace_rounds", rounds, count * round, sizeof(size_t), round, 1},
        {"trace_sweep", sweep, 3 * sums, sizeof(size_t), sums, 1},
        {"trace_predict", predict, 0, sizeof(struct precopy_prediction) + errors, 1, 1},
        {"trace_enough", enough, 0, sizeof(struct precopy_amounts), 1, 1},
        {"trace_agreement", agreement, 0, sizeof(struct precopy_agreement), 1, 1},
        {"trace_forecast", forecast, 0, sizeof(struct precopy_forecast), 1, 1},
        {"trace_link_shares", link_shares, 0, sizeof(struct precopy_link_shares), 1, 1},
        {"trace_best_start", best_start, 0, sizeof(struct precopy_best_start) + errors, 1, 1},
        {"trace_memory_before", memory_before, bytes, sizeof(size_t), 1, 0},
        {"trace_memory_step", memory_step, bytes, 0, 1, 0},
        {"trace_writes_before", writes_before, 0, word, 1, 0},
        {"trace_page_writes", page_writes, writes * row, sizeof(size_t), row, 0},
        {"trace_version_after", version_after, 0, word, 1, 0},
        {"trace_versions_after", versions_after, versions, sizeof(size_t), word, 0},
        {"trace_versions_before", versions_before, versions, sizeof(size_t), word, 0},
        {"trace_page_at", page_at, size, 0, 1, 0},
        {"trace_check_piece", check_piece, 0, 2 * versions + bytes, 1, 0},
        {"trace_check_pages", check_pages, 0, found, 1, 0},
        {"encode_frame", encode, needed, sizeof(size_t), 1, 1},
        {"decode_frame", decode, size, sizeof(struct precopy_frame), 1, 0},
    };
    size_t all = sizeof trials / sizeof *trials;
    for (size_t i = 0; i < all; i++) {
        try_refusals(guest, &trials[i]);
        try_lengths(guest, &trials[i]);
    }
    if (sizes->writes < 20000) {
        try_threads(guest, trials, all);
    }
    try_alike(guest, plan, trace_plan, 0, sums, "plan");
    try_alike(guest, report, trace_report, text, sizeof(size_t), "report");
    try_steps(guest, sizes, whole.room.at);
    try_streams(sizes, earlier.room.at, whole.room.at);
    int stays = !memcmp(words.at, guest->words.at, index) && !memcmp(&opened, &guest->held, sizeof opened);
    expect(stays && !memcmp(bytes_of_trace.at, guest->trace.at, bytes_of_trace.length), "an open trace", "it changed");
    drop(&words);
    drop(&bytes_of_trace);
    drop_outputs(&whole);
    drop_outputs(&earlier);
    drop_outputs(&none);
}

int main(int argc, char **argv) {
    FILE *file = argc == 3 ? fopen(argv[1], "rb") : NULL;
    if (!file) {
        fprintf(stderr, "usage: library TRACE TICK\n");
        return 2;
    }
    uint8_t *bytes = __real_malloc(((size_t)1 << 28) + 2);
    size_t length = fread(bytes, 1, ((size_t)1 << 28) + 2, file);
    fclose(file);
    struct precopy_settings settings = settings_of(2, 4000, 2, 0);
    struct precopy_settings cases[] = {settings, settings_of(100, 4000, 2, 1), settings_of(2, 4, 3, 0)};
    struct guest guest = {.trace = input_of(bytes, length), .settings = input_of(&settings, sizeof settings)};
    __real_free(bytes);
    struct precopy_question question = question_of(4096, 1);
    struct precopy_starts starts = {sizeof starts, 0, 1000, 0, 1};
    guest.cases = input_of(cases, sizeof cases);
    guest.starts = input_of(&starts, sizeof starts);
    guest.question = input_of(&question, sizeof question);
    guest.tick = strtoull(argv[2], NULL, 10);
    struct outputs out = outputs_of(0, sizeof(struct precopy_sizes));
    uint32_t status = check_trace(&guest, &out);
    struct precopy_sizes sizes;
    memcpy(&sizes, out.told.at, sizeof sizes);
    if (status != PRECOPY_OK) {
        expect(precopy_strerror(status)[0] != 0, "strerror", "of a status");
        try_refused(&guest, status, &out.record);
    } else if ((size_t)sizes.pages << sizes.shift <= MOST_MEMORY) {
        guest.sizes = input_of(&sizes, sizeof sizes);
        try_all(&guest, &sizes);
    }
    drop_outputs(&out);
    drop_guest(&guest);
    printf("status %u, %d passed, %d failed\n", status, passed, failed);
    return failed != 0;
}
