/*
 * precopy: plans of pre-copy live migrations, memory of recorded guests, and frames of pages.
 *
 * A trace is a recording of a guest's writes (docs/FORMATS.md). A tick is its unit of time. A rate is in pages per
 * 1,000 ticks. Pages are numbered from 0, and have 2^shift bytes. Memory is all pages, one after the other. A stamp
 * is the place of the last write in a page, 1 for the first write of the trace, or 0 before any.
 *
 * To plan the migration of a trace that is in memory:
 *
 *     struct precopy_settings settings = PRECOPY_SETTINGS_DEFAULT;
 *     struct precopy_sums sums;
 *     uint32_t record = 0, status = precopy_plan(trace, trace_length, &settings, &sums, &record);
 *     if (status == PRECOPY_OK)
 *         printf("the guest stands still for %u ticks\n", (unsigned)sums.down);
 *     else
 *         fprintf(stderr, "%s\n", precopy_strerror(status));
 *
 * Programs are linked with -lprecopy; pkg-config knows it as precopy.
 *
 * What holds for every function:
 *
 * - It returns PRECOPY_OK, which is 0, or another number of enum precopy_status. If it isn't PRECOPY_OK, the
 *   function has written only what its comment names.
 * - Of several causes it returns the first in this order: the settings, the sizes or the question, then the trace or
 *   what its comment names, and last a buffer that is too short. Only precopy_trace_sweep tests its buffer first.
 *   PRECOPY_NO_MEMORY comes as soon as memory runs out, before what is tested later.
 * - If it tests the bytes of a trace, it takes `record` too. Of one that is refused for a record,
 *   PRECOPY_SHORT_RECORD to PRECOPY_OUT_OF_PAGE, *record is the number of that record, from 0. Else it stays.
 * - It keeps nothing between two calls, starts no thread, and doesn't block. Any number of threads may call at
 *   once.
 * - All memory is the caller's. A function that needs memory of its own gets it from malloc, frees it before it
 *   returns, and returns PRECOPY_NO_MEMORY if there is none. Its comment says whether it takes any.
 * - A buffer that is longer than needed keeps the rest of its contents. One that is too short gets nothing: the
 *   function returns PRECOPY_SHORT_BUFFER, and sets the length that it needs, if that is not a page's or a write's.
 *
 * What nothing checks, and a caller must ensure:
 *
 * - Only a pointer whose length is 0 may be null. Each other pointer is aligned for its type.
 * - The memory that a pointer and its length describe is there, and all of an input is initialized.
 * - A struct precopy_trace is as precopy_trace_open left it, and so are the bytes and the words that it was given.
 * - What is lent to precopy_trace_check_piece, precopy_trace_check_bytes and precopy_trace_check_pages began as zeros,
 *   or as precopy_trace_check_base left it, and only the first two of these changed it. It is of one trace.
 * - What a function writes overlaps nothing else that is passed to it, and no other thread reads or writes it
 *   meanwhile. No thread writes an input meanwhile.
 * - No function is called from a signal handler, nor from the forked child of a process with threads.
 */
#ifndef PRECOPY_H
#define PRECOPY_H

#include <stdbool.h>
#include <stddef.h>
#include <stdint.h>

#ifdef __cplusplus
extern "C" {
#endif

/* The number in the name libprecopy.so.6: it changes when programs must be recompiled. */
#define PRECOPY_ABI 6

/* The version of this header as a number, which is 10203 for 1.2.3. */
#define PRECOPY_VERSION_NUMBER 600

/* For compilers that can tell: an answer must be looked at, and the arguments at these places are not null. */
#if defined(__GNUC__)
#define PRECOPY_ANSWERS __attribute__((warn_unused_result))
#define PRECOPY_NOT_NULL(...) __attribute__((nonnull(__VA_ARGS__)))
#else
#define PRECOPY_ANSWERS
#define PRECOPY_NOT_NULL(...)
#endif

/* What functions return. The names E1, S1 and F1 are those that the program precopy writes. */
enum precopy_status {
    PRECOPY_OK = 0,

    /* A trace is refused. */
    PRECOPY_SHORT_HEADER = 1,       /* E1: it has fewer than the 16 bytes of a header */
    PRECOPY_BAD_MAGIC = 2,          /* E2: it does not begin with PCWT */
    PRECOPY_BAD_VERSION = 3,        /* E3: its version is not 1 or 2 */
    PRECOPY_BAD_SHIFT = 4,          /* E4: its pages do not have 16 to 4,096 bytes (so too in struct precopy_sizes) */
    PRECOPY_BAD_RESERVED = 5,       /* E5: byte 6 or 7 is not 0 */
    PRECOPY_BAD_PAGES = 6,          /* E6: it does not have 1 to 65,536 pages (so too in struct precopy_sizes) */
    PRECOPY_TOO_MANY_WRITES = 7,    /* E7: it has more than 1,048,576 writes (so too in struct precopy_sizes) */
    PRECOPY_SHORT_RECORD = 8,       /* E8: it ends within this record */
    PRECOPY_TICK_ORDER = 9,         /* E9: the tick is below that of the previous record */
    PRECOPY_TICK_TOO_LARGE = 10,    /* E10: the tick is 2^40 or more */
    PRECOPY_PAGE_OUT_OF_RANGE = 11, /* E11: the guest does not have the page */
    PRECOPY_EMPTY_WRITE = 12,       /* E12: the write has no bytes, and is no release */
    PRECOPY_OUT_OF_PAGE = 13,       /* E13: the write goes beyond its page */
    PRECOPY_TRAILING_BYTES = 14,    /* E14: bytes follow the last record */
    PRECOPY_TOO_LONG = 15,          /* E15: it has more than 2^28 bytes */

    PRECOPY_NO_MEMORY = 16, /* E16: memory ran out (malloc returned null) */

    /* Settings are refused, for another size before all else. */
    PRECOPY_BAD_MIN = 21,       /* S1: min is not 1 to 1,000,000 */
    PRECOPY_BAD_MAX = 22,       /* S2: max is not min to 1,000,000 */
    PRECOPY_BAD_INCREMENT = 23, /* S3: increment is more than 1,000,000 */
    PRECOPY_BAD_THRESHOLD = 24, /* S4: threshold is not 1 to 65,536 */
    PRECOPY_BAD_ROUNDS = 25,    /* S5: rounds is not 1 to 64 */
    PRECOPY_BAD_WINDOW = 26,    /* S6: window is not 1 to 2^40 */
    PRECOPY_BAD_HOT = 27,       /* S7: hot is not 1 to 1,048,576 */
    PRECOPY_BAD_START = 28,     /* S8: start is 2^40 or more */
    PRECOPY_BAD_BASE = 30,      /* S10: base is after start */
    PRECOPY_BAD_SIZE = 31,      /* a struct of settings, a question or starts has another size than the library knows */

    /* A frame is refused. */
    PRECOPY_FRAME_SHORT = 41, /* F1: a frame is cut off */
    PRECOPY_FRAME_PAGE = 42,  /* F2: a page is not below the number of pages */
    PRECOPY_FRAME_STAMP = 43, /* F3: a stamp is greater than the number of writes */
    PRECOPY_FRAME_KIND = 44,  /* F4: a kind is not 0 or 1 */
    PRECOPY_FRAME_ZEROS = 45, /* F5: a page of zeros comes byte by byte */

    /* A buffer or a number of pages does not fit. */
    PRECOPY_SHORT_BUFFER = 61,  /* a buffer is too short for what belongs there */
    PRECOPY_PAGE_LENGTH = 62,   /* the number of bytes is not that of a page */
    PRECOPY_MEMORY_LENGTH = 63, /* the length of memory is not that of all pages */
    PRECOPY_PAGE_COUNT = 64,    /* there is not an element for each page */
    PRECOPY_PAGE_MISSING = 65,  /* a page did not come */
    PRECOPY_STREAM_SIZES = 66,  /* the streams do not have as many bytes as their sizes say */

    /* A trace does not have what is asked for. */
    PRECOPY_NO_PAGE = 67,   /* the guest does not have the page */
    PRECOPY_BACKWARDS = 68, /* a step ends before it begins */

    /* Streams are not what they must be. */
    PRECOPY_NO_VERSION = 71,  /* no write to the page has the place of the stamp (0 needs no write) */
    PRECOPY_AFTER_STOP = 72,  /* the stamp is of a write after the stop */
    PRECOPY_OLDER = 73,       /* a frame of the page with a greater stamp came before in the stream */
    PRECOPY_OTHER_BYTES = 74, /* the bytes are not those of the page at the stamp */
    PRECOPY_PAGE_BEHIND = 75, /* a page is not at its version at the stop */

    /* A question is refused. One that makes settings which are out of their range is refused for these, S1 to S10. */
    PRECOPY_BAD_TICK = 81,     /* a tick is not 1 microsecond to 1 second */
    PRECOPY_BAD_PAGE = 82,     /* a page does not have 16 to 4,096 bytes */
    PRECOPY_BAD_SAMPLE = 83,   /* not 1 page to all of the guest were sampled, or it has more than 2^32 */
    PRECOPY_BAD_LINK = 84,     /* the rate of the link is not 1 to 1,000,000 pages per 1,000 ticks; take another tick */
    PRECOPY_BAD_FIRST = 85,    /* the rate of the first round is not 1 page per 1,000 ticks to that of the link */
    PRECOPY_BAD_RESERVE = 86,  /* the reserve is longer than the downtime */
    PRECOPY_BAD_DOWNTIME = 87, /* more than 65,535 pages go over the link within the downtime */

    /* A trace is not as a question says. */
    PRECOPY_OTHER_PAGES = 88, /* the pages of the trace have another size than the question says */
    PRECOPY_MORE_PAGES = 89,  /* the trace has more pages than the question says were sampled */

    /* Starts are refused. */
    PRECOPY_TOO_MANY_STARTS = 90 /* there are more than 4,096 starts; take them further apart */
};

/* A line about a status, in English. It never returns null, and the text stays. */
const char *precopy_strerror(uint32_t status);

/* No sentence of precopy_refusal_text or precopy_finding_text is longer. */
#define PRECOPY_TEXT_BOUND 320

/*
 * Writes the sentence about a call that is refused: the line about its status, `cause`, with the number of the record,
 * if the trace is refused for one. It is ASCII, without a 0 at the end, and *needed is its length.
 *
 * If the buffer is shorter, it returns PRECOPY_SHORT_BUFFER and writes only *needed. It takes no memory.
 */
PRECOPY_ANSWERS PRECOPY_NOT_NULL(5)
uint32_t precopy_refusal_text(uint32_t cause, uint32_t record, uint8_t *text, size_t text_length, size_t *needed);

struct precopy_finding;

/*
 * Writes the sentence about what a check of streams has found: where it is, the page, its stamp and the one that was to
 * be, the line about the status, and the write that is missing. With a status that is no finding of streams it is
 * precopy_refusal_text without a record. Otherwise like that.
 */
PRECOPY_ANSWERS PRECOPY_NOT_NULL(2, 5)
uint32_t precopy_finding_text(uint32_t status, const struct precopy_finding *found, uint8_t *text, size_t text_length,
                              size_t *needed);

/* The version of the library that is linked, as "1.2.3". The text stays. */
const char *precopy_version(void);

/* PRECOPY_ABI of the library that is linked. A program that was compiled with another number must not call it. */
PRECOPY_ANSWERS
uint32_t precopy_abi(void);

/* ---- traces */

/* The sizes of a trace, from its header. */
struct precopy_sizes {
    uint32_t shift;  /* a page has 2^shift bytes; 4 to 12 */
    uint32_t pages;  /* 1 to 65,536 */
    uint32_t writes; /* 0 to 1,048,576 */
};

/*
 * Tests the bytes of a trace, and sets *sizes. Of several causes the first is returned. It takes no memory.
 */
PRECOPY_ANSWERS PRECOPY_NOT_NULL(3, 4)
uint32_t precopy_check_trace(const uint8_t *trace, size_t trace_length, struct precopy_sizes *sizes, uint32_t *record);

/* ---- plans */

/* The settings of a plan. Rates are in pages per 1,000 ticks. */
struct precopy_settings {
    uint64_t size;      /* sizeof(struct precopy_settings), which grows if a version has more settings */
    uint64_t min;       /* the rate of the first round, and the least one */
    uint64_t max;       /* the greatest rate; that of the final copy */
    uint64_t increment; /* what is added to a dirtying rate to get the next rate */
    uint64_t threshold; /* rounds end after one in which fewer pages were dirtied */
    uint64_t rounds;    /* the most rounds */
    uint64_t start;     /* the tick at which the first round begins */
    uint64_t window;    /* of a report: the ticks of a window */
    uint64_t hot;       /* of a report: a page written in this many windows is hot */
    uint64_t base;      /* the destination begins with the memory before this tick, if has_base isn't 0 */
    uint32_t has_base;  /* 0: the destination begins with nothing */
    uint32_t skip;      /* 0: all pages of a round are sent, even those that were written again */
};

/* Settings to begin with: those that the program precopy uses if no option is given. */
#define PRECOPY_SETTINGS_DEFAULT {sizeof(struct precopy_settings), 1000, 5000, 500, 64, 30, 0, 1000, 2, 0, 0, 0}

/* Why pre-copying ends. A plan of rounds ends for one of the first three; the others are of predictions by looks. */
enum precopy_reason {
    PRECOPY_FEW = 0,        /* few pages are left: by rounds, fewer than the threshold were dirtied */
    PRECOPY_FAST = 1,       /* the next rate would be above the greatest */
    PRECOPY_ALL_ROUNDS = 2, /* all requested rounds are done */
    PRECOPY_ALL_LOOKS = 3,  /* 2,000 looks are done */
    PRECOPY_CUT = 4,        /* the trace ends first, while the lists of pages get shorter */
    PRECOPY_LEVEL = 5       /* the trace ends first, and the lists of pages do not get shorter */
};

/* The sums of a plan. */
struct precopy_sums {
    uint64_t rounds; /* how many rounds there are */
    uint64_t reason; /* of enum precopy_reason */
    uint64_t stop;   /* the tick at which the guest is stopped */
    uint64_t down;   /* the downtime, in ticks */
    uint64_t total;  /* the pages that are sent, over all rounds and after the stop */
};

/* A round of a plan: from one tick to before another. */
struct precopy_round {
    uint64_t from;    /* its first tick */
    uint64_t to;      /* the first tick after it */
    uint64_t rate;    /* its rate */
    uint64_t pages;   /* its number of pages */
    uint64_t sent;    /* how many of them it sends */
    uint64_t dirtied; /* how many pages are written meanwhile */
};

/* Tests settings: returns PRECOPY_OK, or why the first bad one is refused. It takes no memory. */
PRECOPY_ANSWERS PRECOPY_NOT_NULL(1)
uint32_t precopy_check_settings(const struct precopy_settings *settings);

/*
 * Plans the migration of a trace, and writes the plan's sums into *sums.
 *
 * It takes 16 bytes for each write, and 8 for each page of each round.
 */
PRECOPY_ANSWERS PRECOPY_NOT_NULL(3, 4, 5)
uint32_t precopy_plan(const uint8_t *trace, size_t trace_length, const struct precopy_settings *settings,
                      struct precopy_sums *sums, uint32_t *record);

/*
 * At least as many bytes as the report on a trace of this length has, as a constant if the length is one. A write has
 * at least 16 bytes in a trace. A report has a line of at most 72 bytes for each window with a write, one of at most 11
 * for each hot page, one for each round, and three more, all of at most 128.
 */
#define PRECOPY_REPORT_BOUND(trace_length)                                                                             \
    (72 * PRECOPY_MOST(trace_length, 1048576) + 11 * PRECOPY_MOST(trace_length, 65536) + 128 * (size_t)67)

/* How many writes a trace of this length may have, or `most` if that is less. */
#define PRECOPY_MOST(trace_length, most)                                                                               \
    ((size_t)(trace_length) < 32                         ? (size_t)0                                                   \
     : ((size_t)(trace_length)-16) / 16 < (size_t)(most) ? ((size_t)(trace_length)-16) / 16                            \
                                                         : (size_t)(most))

/*
 * Writes the report on a trace, as `precopy report` does: ASCII, without a 0 at the end. *needed is its length.
 *
 * If the buffer is shorter, it returns PRECOPY_SHORT_BUFFER and writes only *needed. That takes as long as a report. A
 * buffer of PRECOPY_REPORT_BOUND(trace_length) bytes is never too short, so with it one call does. It takes memory as
 * precopy_plan does, and for the text.
 */
PRECOPY_ANSWERS PRECOPY_NOT_NULL(3, 6, 7)
uint32_t precopy_report(const uint8_t *trace, size_t trace_length, const struct precopy_settings *settings,
                        uint8_t *text, size_t text_length, size_t *needed, uint32_t *record);

/* ---- memory */

/*
 * Writes the memory after all writes of a trace, as `precopy image` does. *needed is its length, pages times 2^shift.
 *
 * If the buffer is shorter, it returns PRECOPY_SHORT_BUFFER and writes only *needed. It takes no memory.
 */
PRECOPY_ANSWERS PRECOPY_NOT_NULL(5, 6)
uint32_t precopy_memory(const uint8_t *trace, size_t trace_length, uint8_t *memory, size_t memory_length,
                        size_t *needed, uint32_t *record);

/* ---- frames */

/* What a frame has besides the bytes of its page. */
struct precopy_frame {
    uint32_t page;  /* the number of the page */
    uint32_t stamp; /* the place of the last write in its bytes, or 0 */
    size_t size;    /* how many bytes the frame has: 9, or 9 and those of a page */
};

/*
 * Encodes the frame of a page at a stamp, with these bytes of the page. *needed is how many bytes the frame has: 9
 * for a page of zeros, or 9 and those of the page.
 *
 * After the sizes the page is tested, then the stamp, and then the number of bytes. If the buffer is shorter than the
 * frame, it returns PRECOPY_SHORT_BUFFER and writes only *needed. It takes memory for one frame.
 */
PRECOPY_ANSWERS PRECOPY_NOT_NULL(1, 8)
uint32_t precopy_encode_frame(const struct precopy_sizes *sizes, uint32_t page, uint32_t stamp, const uint8_t *bytes,
                              size_t bytes_length, uint8_t *frame, size_t frame_length, size_t *needed);

/*
 * Decodes the frame at the front of some bytes: writes what it has into *frame, and the bytes of its page to
 * `content`.
 *
 * Bytes after the frame are left: the next frame begins at bytes + frame->size. If `content` is shorter than a page, it
 * returns PRECOPY_SHORT_BUFFER. It takes no memory.
 */
PRECOPY_ANSWERS PRECOPY_NOT_NULL(1, 4)
uint32_t precopy_decode_frame(const struct precopy_sizes *sizes, const uint8_t *bytes, size_t bytes_length,
                              struct precopy_frame *frame, uint8_t *content, size_t content_length);

/* What is known about a page of flat memory. If the struct is all zeros, the page did not come. */
struct precopy_page {
    uint32_t came;  /* 0: no frame of the page came, and its bytes in memory mean nothing */
    uint32_t stamp; /* else the stamp of the frame of its bytes */
};

/* How much of a stream was taken. */
struct precopy_taken {
    size_t frames; /* how many frames */
    size_t bytes;  /* how many bytes they have in total */
};

/*
 * Takes a stream of frames into flat memory: `memory` has the bytes of all pages, and `pages` an element for each page.
 * Both begin as zeros, and are the caller's to keep from call to call. The frame of a page with the greatest stamp
 * stays, in whatever order they come, however often and in however many calls; of equal stamps the first.
 *
 * It returns PRECOPY_OK if all bytes of the stream are frames, or else why the first that is no frame is refused,
 * PRECOPY_FRAME_SHORT to PRECOPY_FRAME_ZEROS. In both cases the frames before it are taken, and *taken says how many
 * there are; stream + taken->bytes is where the refused one begins. So if a stream comes in pieces, keep what
 * PRECOPY_FRAME_SHORT leaves, and append the next piece to it.
 *
 * Any other status leaves memory, pages and *taken as they were. After the sizes the length of memory is tested, then
 * the number of pages, and then the stream. It takes no memory.
 */
PRECOPY_ANSWERS PRECOPY_NOT_NULL(1, 8)
uint32_t precopy_accept(const struct precopy_sizes *sizes, const uint8_t *stream, size_t stream_length, uint8_t *memory,
                        size_t memory_length, struct precopy_page *pages, size_t pages_length,
                        struct precopy_taken *taken);

/*
 * Returns PRECOPY_OK if each page came, or PRECOPY_PAGE_MISSING, and then *page is the first that did not. It
 * takes no memory.
 */
PRECOPY_ANSWERS PRECOPY_NOT_NULL(3)
uint32_t precopy_missing(const struct precopy_page *pages, size_t pages_length, size_t *page);

/* What is wrong in streams. What does not apply is 0. */
struct precopy_finding {
    size_t stream;    /* the stream of a frame, from 0 */
    size_t frame;     /* the number of the frame in its stream, from 0 */
    size_t offset;    /* the byte of its stream at which the frame begins */
    uint64_t tick;    /* the tick of the missing write */
    uint32_t page;    /* the page, unless the bytes are no frame */
    uint32_t stamp;   /* the stamp of the frame, or the greatest with which the page came */
    uint32_t wanted;  /* the stamp that was to be */
    uint32_t missing; /* the place of the first write that the page lacks */
};

/*
 * Checks the streams of a migration that stops its guest after the first `stop` writes of a trace. For a tick,
 * precopy_trace_writes_before says how many these are. `bytes` are those of all streams, one after the other, and
 * sizes[i] is how many stream i has.
 *
 * It returns PRECOPY_OK if each frame is right, and each page comes at its version at the stop. Then a receiver that
 * keeps the frame of a page with the greatest stamp has the memory at the stop, and if there is one stream, so has a
 * receiver that keeps the last frame. Otherwise it returns what is wrong first, stream by stream, and sets *found:
 *
 * - PRECOPY_FRAME_SHORT to PRECOPY_FRAME_ZEROS: the bytes there are no frame.
 * - PRECOPY_NO_VERSION: `wanted` is the page's version after `stamp` writes.
 * - PRECOPY_AFTER_STOP: `wanted` is the page's version at the stop.
 * - PRECOPY_OLDER: `wanted` is the stamp that came before it. Frames are compared within a stream, since the order of
 *   two streams is not known.
 * - PRECOPY_OTHER_BYTES: the frame has the right stamp and other bytes.
 * - PRECOPY_PAGE_BEHIND and PRECOPY_PAGE_MISSING: after all streams, the first page that is not at its version at the
 *   stop, `wanted`, or that never came. If it lacks a write, `missing` and `tick` are those of the first.
 *
 * Any other status leaves *found as it was. The sizes are tested first, with PRECOPY_STREAM_SIZES. It takes memory for
 * a copy of the trace, and some 50 bytes for each write and 30 for each page.
 */
PRECOPY_ANSWERS PRECOPY_NOT_NULL(8, 9)
uint32_t precopy_check_streams(const uint8_t *trace, size_t trace_length, uint32_t stop, const uint8_t *bytes,
                               size_t bytes_length, const size_t *sizes, size_t sizes_length,
                               struct precopy_finding *found, uint32_t *record);

/* ---- traces that stay open */

/*
 * A trace that stays open between calls. Each call over it costs what it answers, and not another test of the trace.
 * It borrows the bytes of the trace and the words of its index: both stay where they are, unchanged, as long as it is
 * used. There is nothing to close. No call changes it, so several threads may use it at once, and a copy is as good.
 * Only plans and predictions over it take memory.
 */
struct precopy_trace {
    struct precopy_sizes sizes; /* the sizes of the trace */
    uint32_t version;           /* the version of its format */
    const uint8_t *bytes;       /* the rest is the library's */
    size_t bytes_length;
    const uint32_t *words;
    size_t words_length;
};

/* At least as many words as the index of a trace with so many bytes has: 3 for each write, and 1 for each page. */
#define PRECOPY_WORDS_BOUND(trace_length) (3 * PRECOPY_MOST(trace_length, 1048576) + 65536)

/*
 * Opens a trace: tests its bytes, makes its index over the front of `words`, and sets *trace. *needed is the number of
 * words in the index.
 *
 * If there are fewer words, it returns PRECOPY_SHORT_BUFFER and writes only *needed. It takes no memory.
 */
PRECOPY_ANSWERS PRECOPY_NOT_NULL(5, 6, 7)
uint32_t precopy_trace_open(const uint8_t *bytes, size_t bytes_length, uint32_t *words, size_t words_length,
                            struct precopy_trace *trace, size_t *needed, uint32_t *record);

/* Sets *count to the number of writes before a tick: those with a lower tick. It always returns PRECOPY_OK. */
PRECOPY_ANSWERS PRECOPY_NOT_NULL(1, 3)
uint32_t precopy_trace_writes_before(const struct precopy_trace *trace, uint64_t tick, uint32_t *count);

/*
 * Writes the memory before a tick, after the writes of all lower ticks, and reads these alone. A migration that stops
 * its guest at that tick must leave this memory. *needed is its length, pages times 2^shift.
 *
 * If the buffer is shorter, it returns PRECOPY_SHORT_BUFFER and writes only *needed.
 */
PRECOPY_ANSWERS PRECOPY_NOT_NULL(1, 5)
uint32_t precopy_trace_memory_before(const struct precopy_trace *trace, uint64_t tick, uint8_t *memory,
                                     size_t memory_length, size_t *needed);

/*
 * Brings memory after the first `from` writes on to that after the first `to` writes, in place. Memory after 0 writes
 * is all zeros. It reads the writes in between alone.
 *
 * It first returns PRECOPY_BACKWARDS if `to` is below `from`. Of a trace with fewer writes than `to` it applies all. If
 * the memory has not as many bytes as all pages, it returns PRECOPY_MEMORY_LENGTH.
 */
PRECOPY_ANSWERS PRECOPY_NOT_NULL(1)
uint32_t precopy_trace_memory_step(const struct precopy_trace *trace, uint32_t from, uint32_t to, uint8_t *memory,
                                   size_t memory_length);

/* A write to a page. */
struct precopy_write {
    uint64_t tick;   /* its tick */
    size_t size;     /* how many bytes it writes; 0 if it releases the page, which becomes zeros */
    uint32_t place;  /* its place in the trace, 1 for the first write */
    uint32_t offset; /* the byte of the page at which it begins */
};

/*
 * Writes the writes to a page into an array, in their order, and reads these alone. *count is how many there are.
 *
 * If there is no such page, it returns PRECOPY_NO_PAGE. If the array has fewer elements, it returns
 * PRECOPY_SHORT_BUFFER and writes only *count.
 */
PRECOPY_ANSWERS PRECOPY_NOT_NULL(1, 5)
uint32_t precopy_trace_page_writes(const struct precopy_trace *trace, uint32_t page, struct precopy_write *writes,
                                   size_t writes_length, size_t *count);

/*
 * Sets *version to the version of a page after the first `count` writes: the place of the last of them that is to the
 * page, or 0 if none is. It reads the writes to the page alone. If there is no such page, it returns PRECOPY_NO_PAGE.
 */
PRECOPY_ANSWERS PRECOPY_NOT_NULL(1, 4)
uint32_t precopy_trace_version_after(const struct precopy_trace *trace, uint32_t page, uint32_t count,
                                     uint32_t *version);

/*
 * Write the versions of all pages after the first `count` writes, and after those before a tick, into an array, page by
 * page, from the index alone. *needed is the number of pages.
 *
 * If the array has fewer elements, they return PRECOPY_SHORT_BUFFER and write only *needed.
 */
PRECOPY_ANSWERS PRECOPY_NOT_NULL(1, 5)
uint32_t precopy_trace_versions_after(const struct precopy_trace *trace, uint32_t count, uint32_t *versions,
                                      size_t versions_length, size_t *needed);
PRECOPY_ANSWERS PRECOPY_NOT_NULL(1, 5)
uint32_t precopy_trace_versions_before(const struct precopy_trace *trace, uint64_t tick, uint32_t *versions,
                                       size_t versions_length, size_t *needed);

/*
 * Writes the bytes of a page at a stamp: as the write to it with this place leaves them, or zeros for 0. It reads the
 * writes to the page alone.
 *
 * It returns PRECOPY_NO_PAGE, PRECOPY_NO_VERSION, or PRECOPY_SHORT_BUFFER if `content` is shorter than a page, in this
 * order.
 */
PRECOPY_ANSWERS PRECOPY_NOT_NULL(1)
uint32_t precopy_trace_page_at(const struct precopy_trace *trace, uint32_t page, uint32_t stamp, uint8_t *content,
                               size_t content_length);

/* How far a stream has come that is checked in pieces. It begins with its number, the stop, and zeros. */
struct precopy_progress {
    size_t stream; /* the number of the stream, from 0 */
    size_t frames; /* how many of its frames came */
    size_t bytes;  /* how many bytes these have */
    uint32_t stop; /* after how many writes of the trace the guest is stopped */
};

/*
 * Checks the next bytes of a stream, as they come: each whole frame of them. However it is cut into pieces, the first
 * frame that is wrong in it is found, as by precopy_check_streams. Pieces of several streams may come in any order.
 *
 * *progress and `last` are the stream's own; all streams share `greatest` and `memory`. Both lists have a word for each
 * page of the guest: its stamp plus 1, or 0 if it did not come. `memory` has the bytes of all pages, each at its
 * greatest stamp. All three begin as zeros. What is behind the whole frames that *progress then counts is the beginning
 * of one: keep it, and append the next bytes to it.
 *
 * If a frame is wrong, it returns why, PRECOPY_FRAME_PAGE to PRECOPY_FRAME_ZEROS or PRECOPY_NO_VERSION to
 * PRECOPY_OTHER_BYTES, sets *found, and has taken the frames before it, but *progress stays. Before that it may return
 * PRECOPY_MEMORY_LENGTH, or PRECOPY_PAGE_COUNT for either list of words, and changes nothing. For a greater stamp than
 * before it makes a page from the writes in between, and for a lower one, which comes in another stream, from the
 * page's first.
 */
PRECOPY_ANSWERS PRECOPY_NOT_NULL(1, 4, 11)
uint32_t precopy_trace_check_piece(const struct precopy_trace *trace, const uint8_t *piece, size_t piece_length,
                                   struct precopy_progress *progress, uint32_t *last, size_t last_length,
                                   uint32_t *greatest, size_t greatest_length, uint8_t *memory, size_t memory_length,
                                   struct precopy_finding *found);

/*
 * Ends a stream that was checked in pieces, of which `left` bytes came behind its last whole frame: returns PRECOPY_OK
 * if it is 0. Otherwise a frame is cut off: it returns PRECOPY_FRAME_SHORT and sets *found.
 */
PRECOPY_ANSWERS PRECOPY_NOT_NULL(1, 3)
uint32_t precopy_end_stream(const struct precopy_progress *progress, size_t left, struct precopy_finding *found);

/*
 * Checks, when all streams have ended, that each page came at its version at the stop, by the words of the greatest
 * stamps and one write of each page. If not, it returns PRECOPY_PAGE_BEHIND or PRECOPY_PAGE_MISSING and sets *found. Of
 * *progress it reads the stop alone. For another number of words it returns PRECOPY_PAGE_COUNT.
 */
PRECOPY_ANSWERS PRECOPY_NOT_NULL(1, 2, 5)
uint32_t precopy_trace_check_pages(const struct precopy_trace *trace, const struct precopy_progress *progress,
                                   const uint32_t *greatest, size_t greatest_length, struct precopy_finding *found);

/*
 * Begins a check of streams onto a destination that has the memory before a tick, as a plan with that base has it: sets
 * `memory` to it, and each page's word of `greatest` to its version there, plus 1. So a page without a write from there
 * to the stop need not come. What both held before is lost. The words of a stream's last stamps still begin as zeros.
 *
 * It returns PRECOPY_MEMORY_LENGTH or PRECOPY_PAGE_COUNT, as precopy_trace_check_piece does, and changes nothing then.
 */
PRECOPY_ANSWERS PRECOPY_NOT_NULL(1)
uint32_t precopy_trace_check_base(const struct precopy_trace *trace, uint64_t tick, uint32_t *greatest,
                                  size_t greatest_length, uint8_t *memory, size_t memory_length);

/*
 * Checks a page that comes without a stamp, as from an engine that knows its dirty pages alone. Its bytes are right if
 * the page has them after some of its writes: no fewer than `memory` has it after, and none behind the first `stop` of
 * the trace. The least such version, plus 1, is then the page's word of `greatest`, and `memory` has the bytes. Words
 * and memory are those of precopy_trace_check_piece. At the end precopy_trace_differs tells if the memory is right.
 *
 * Before it checks anything it may return PRECOPY_MEMORY_LENGTH, PRECOPY_PAGE_COUNT, PRECOPY_NO_PAGE, or
 * PRECOPY_PAGE_LENGTH, in this order. It returns PRECOPY_OTHER_BYTES if the page has the bytes at no such version.
 * Whatever it returns but PRECOPY_OK, nothing changes.
 */
PRECOPY_ANSWERS PRECOPY_NOT_NULL(1)
uint32_t precopy_trace_check_bytes(const struct precopy_trace *trace, uint32_t stop, uint32_t page,
                                   const uint8_t *content, size_t content_length, uint32_t *greatest,
                                   size_t greatest_length, uint8_t *memory, size_t memory_length);

/*
 * Compares memory with that after the first `count` writes of the trace, in `room`, which has the bytes of a page and
 * is written over. It returns PRECOPY_OK if they are equal. Otherwise it returns PRECOPY_PAGE_BEHIND and sets *found:
 * `offset` is the first byte of memory that differs, `page` its page, `wanted` the page's version, and `missing` and
 * `tick` those of the last write to that byte, or 0 if none of these writes wrote it.
 *
 * Before that it may return PRECOPY_MEMORY_LENGTH, or PRECOPY_PAGE_LENGTH for `room`. *found stays then.
 */
PRECOPY_ANSWERS PRECOPY_NOT_NULL(1, 7)
uint32_t precopy_trace_differs(const struct precopy_trace *trace, uint32_t count, const uint8_t *memory,
                               size_t memory_length, uint8_t *room, size_t room_length, struct precopy_finding *found);

/* ---- plans of an open trace */

/* Do what precopy_plan and precopy_report do, and take memory as those do. PRECOPY_REPORT_BOUND takes bytes_length. */
PRECOPY_ANSWERS PRECOPY_NOT_NULL(1, 2, 3)
uint32_t precopy_trace_plan(const struct precopy_trace *trace, const struct precopy_settings *settings,
                            struct precopy_sums *sums);
PRECOPY_ANSWERS PRECOPY_NOT_NULL(1, 2, 5)
uint32_t precopy_trace_report(const struct precopy_trace *trace, const struct precopy_settings *settings, uint8_t *text,
                              size_t text_length, size_t *needed);

/*
 * Plans the migration of a trace, and writes its rounds into an array, in order. *count is how many there are.
 *
 * If the array has fewer elements, it returns PRECOPY_SHORT_BUFFER and writes only *count. There are at most 64 rounds.
 * It takes memory as precopy_plan does.
 */
PRECOPY_ANSWERS PRECOPY_NOT_NULL(1, 2, 5)
uint32_t precopy_trace_rounds(const struct precopy_trace *trace, const struct precopy_settings *settings,
                              struct precopy_round *rounds, size_t rounds_length, size_t *count);

/*
 * Plans the migration of a trace with each of some settings. sums[i] are the sums of the plan of cases[i]. *best is the
 * number of the best case: the first with the least downtime, and of these the first with the fewest pages sent. With
 * no cases it is 0.
 *
 * If there are fewer sums than cases, it returns PRECOPY_SHORT_BUFFER, whatever else is refused; it needs as many sums
 * as cases. It refuses the first case that is out of range; precopy_check_settings finds which that is. It takes 20
 * bytes for each write, and memory for each case.
 */
PRECOPY_ANSWERS PRECOPY_NOT_NULL(1, 6)
uint32_t precopy_trace_sweep(const struct precopy_trace *trace, const struct precopy_settings *cases,
                             size_t cases_length, struct precopy_sums *sums, size_t sums_length, size_t *best);

/* ---- predictions */

/*
 * What is asked of a migration, in bytes a second and microseconds: how much it may take, what ticks and pages of the
 * trace stand for, where it begins, and by whose plan it goes.
 *
 * A hypervisor like QEMU sends with the whole link, and looks at its dirty bitmap again when the pages that are left go
 * over it within the downtime. Clark's plan goes round by round, at rates that follow the guest's. `first`,
 * `increment`, `rounds` and `skip` are of his rounds alone; but the ranges of `increment` and `rounds` are tested of
 * both.
 */
struct precopy_question {
    uint64_t size;          /* sizeof(struct precopy_question), which grows if a version asks for more */
    uint64_t link;          /* what the migration may use of the link, in bytes a second */
    uint64_t first;         /* what its first round may use, if has_first isn't 0; else the whole link */
    uint64_t downtime;      /* the longest downtime, in microseconds */
    uint64_t reserve;       /* the part of it that goes to other things than pages, in microseconds */
    uint64_t tick;          /* the length of a tick, in microseconds */
    uint64_t page;          /* the bytes of a page of the trace */
    uint64_t sampled;       /* how many of the guest's pages were recorded */
    uint64_t guest;         /* how many pages the guest has; if as many were recorded, any equal numbers do */
    uint64_t increment;     /* what is added to a dirtying rate, in pages per 1,000 ticks, if has_increment isn't 0 */
    uint64_t rounds;        /* the most rounds */
    uint64_t start;         /* the tick at which it begins */
    uint64_t base;          /* the destination begins with the memory before this tick, if has_base isn't 0 */
    uint32_t has_first;     /* 0: the first round uses the whole link */
    uint32_t has_increment; /* 0: a tenth of what the link has above the first round */
    uint32_t has_base;      /* 0: the destination begins with nothing */
    uint32_t skip;          /* 0: all pages of a round are sent, even those that were written again */
    uint32_t clark;         /* 0: it goes by a hypervisor's looks; else by Clark's rounds, as with --clark */
};

/*
 * A question to begin with: what `precopy-view predict` asks if no option is given, with pages of 4,096 bytes, of which
 * all were recorded. The link and the downtime are 0, and the caller's to set.
 */
#define PRECOPY_QUESTION_DEFAULT                                                                                       \
    {sizeof(struct precopy_question), 0, 0, 0, 0, 1000, 4096, 1, 1, 0, 30, 0, 0, 0, 0, 0, 0, 0}

/* An answer that a trace may be too short to give. */
enum precopy_verdict {
    PRECOPY_YES = 0,
    PRECOPY_NO = 1,
    PRECOPY_UNKNOWN = 2,  /* the trace ends before the migration does */
    PRECOPY_UNCERTAIN = 3 /* chance, or the start, decides: precopy_trace_agreement alone tells it */
};

/*
 * What a migration will be. If a verdict is unknown, both are, and of the rest only `recorded` tells something: by
 * rounds the other numbers are of a plan that goes on without writes after the trace has ended, and by looks of a guest
 * that is stopped there. A number that 64 bits do not hold is 2^64 - 1.
 */
struct precopy_prediction {
    uint64_t rounds;    /* how many rounds or looks there are */
    uint64_t reason;    /* of enum precopy_reason */
    uint64_t stop;      /* the tick at which the guest is stopped */
    uint64_t down;      /* how long the pages that are left take, in ticks */
    uint64_t total;     /* the pages of the trace that are sent, before the stop and after it */
    uint64_t left;      /* how many of them are sent after the stop */
    uint64_t time;      /* from the start until the guest runs again, in microseconds */
    uint64_t bytes;     /* how many bytes of the guest are sent */
    uint64_t downtime;  /* how long the guest stands still, with the reserve, in microseconds */
    uint64_t recorded;  /* how long the trace goes on after the start, in microseconds */
    uint32_t converges; /* of enum precopy_verdict: whether it ends since few pages are left */
    uint32_t kept;      /* of enum precopy_verdict: whether the guest is stopped, and for no longer than the limit */
};

/* How far the draw of a sample moves a prediction: standard errors. */
struct precopy_errors {
    uint64_t bytes;      /* of the bytes */
    uint64_t time;       /* of the time, in microseconds */
    uint64_t downtime;   /* of the downtime, in microseconds */
    uint32_t has_errors; /* 0: there are none, since fewer than 2 pages were sampled, more than 65,536, or all */
};

/*
 * Predicts the migration of a trace with the limits of a question, as `precopy-view predict` does: sets *prediction,
 * and *errors to its standard errors, or to zeros.
 *
 * The question is tested first, and then whether the trace's pages are those of the question. It takes no more memory
 * than precopy_trace_plan, and for standard errors 8 bytes for each sampled page and the time of 20 more plans.
 */
PRECOPY_ANSWERS PRECOPY_NOT_NULL(1, 2, 3, 4)
uint32_t precopy_trace_predict(const struct precopy_trace *trace, const struct precopy_question *question,
                               struct precopy_prediction *prediction, struct precopy_errors *errors);

/* How sure a prediction is. Of the starts those count from which the migration ends within the trace. */
struct precopy_agreement {
    uint64_t draws;             /* how often the pages of a sample are drawn again: 20, or 0 if there are no errors */
    uint64_t draws_known;       /* in how many of these draws the migration ends within the trace */
    uint64_t draws_converging;  /* in how many it converges */
    uint64_t draws_kept;        /* in how many it keeps the downtime limit */
    uint64_t starts;            /* from how many of at most 21 starts, spread over the trace, it ends within it */
    uint64_t starts_converging; /* from how many it converges */
    uint64_t starts_kept;       /* from how many it keeps the downtime limit */
    uint32_t converges;         /* of enum precopy_verdict: whether it surely converges */
    uint32_t kept;              /* of enum precopy_verdict: whether it surely keeps the downtime limit */
};

/*
 * Sets *agreement to how sure the verdicts of precopy_trace_predict are, as `precopy-view predict` tells it: an answer
 * is uncertain unless 19 of 20 draws, and 19 in 20 of the starts, have it too. If a hypervisor's plan converges, draws
 * have a tenth less of the link. By rounds a limit is surely kept if two standard errors more of the downtime are
 * within it; a hypervisor stops the guest only when what is left fits it.
 *
 * It tests what precopy_trace_predict does, in the same order. It takes memory as that does, and the time of 63 plans.
 */
PRECOPY_ANSWERS PRECOPY_NOT_NULL(1, 2, 3)
uint32_t precopy_trace_agreement(const struct precopy_trace *trace, const struct precopy_question *question,
                                 struct precopy_agreement *agreement);

/*
 * What is enough for the downtime limit of a question, each amount by itself, in the question's units. A limit is kept
 * if the migration converges within the trace and its downtime is within the limit. An amount that was not found is 0.
 *
 * From a limit that is not kept the link and the downtime are searched upwards, by doublings to 64 times what is asked;
 * from one that is, downwards by halves, to a 64th; then between the two amounts, by 256ths. So the least is the
 * nearest: beyond it the limit may be missed or kept again.
 *
 * If the trace ends before the migration does, the link is searched in the same way with which it ends within the
 * trace, and the start from the question's (or the last tick) back to its base, or to tick 0, by 4,096ths. The limit
 * may be missed there.
 *
 * Links are whole kilobits a second, which are multiples of 125 bytes; what is asked counts as rounded up. So if the
 * limit is kept, the least link may be up to 124 bytes a second more than what is asked.
 */
struct precopy_amounts {
    uint64_t link;             /* the least link, in bytes a second, a multiple of 125, if has_link isn't 0 */
    uint64_t downtime;         /* the least downtime, in microseconds, if has_downtime isn't 0 */
    uint64_t speed;            /* to how many per cent of its speed the guest is slowed, if has_speed isn't 0 */
    uint64_t ending_link;      /* the least link that ends the migration within the trace, if has_ending_link isn't 0 */
    uint64_t ending_start;     /* the latest start that does, if has_ending_start isn't 0 */
    uint32_t has_link;         /* 0: no link that was tried keeps the limit */
    uint32_t has_downtime;     /* 0: no downtime that was tried keeps it */
    uint32_t has_speed;        /* 0: no speed of 95, 90 .. 5 per cent keeps it, or it is kept at its own */
    uint32_t has_ending_link;  /* 0: no link that was tried ends the migration within the trace, or its own does */
    uint32_t has_ending_start; /* 0: no start that was tried does, or its own does */
    uint32_t is_kept;          /* 0: the limit is not kept, or the trace ends before the migration does */
    uint32_t ends;             /* 0: the trace ends before the migration does */
};

/*
 * Sets *amounts to what is enough for the downtime limit of a question, and to end within the trace, as the lines
 * `enough` of `precopy-view predict` tell it.
 *
 * It tests what precopy_trace_predict does, in the same order. It takes memory as precopy_trace_plan does, and the time
 * of some 35 plans, at most 99; of a migration that ends after the trace at most 187.
 */
PRECOPY_ANSWERS PRECOPY_NOT_NULL(1, 2, 3)
uint32_t precopy_trace_enough(const struct precopy_trace *trace, const struct precopy_question *question,
                              struct precopy_amounts *amounts);

/* Why the migration of a hypervisor ends that looks at its dirty bitmap as QEMU does. */
enum precopy_forecast_end {
    PRECOPY_FEW_LEFT = 0,   /* few pages are left, so the guest is stopped */
    PRECOPY_TRACE_ENDS = 1, /* the trace ends first: if the guest were stopped there, the other numbers would hold */
    PRECOPY_NOT_BEGUN = 2   /* the question's start is after the trace: the other numbers are 0 */
};

/*
 * What a migration comes to if its hypervisor goes on as QEMU does. It sends with the whole link, asks each 100 ms how
 * many pages are left, and looks at its dirty bitmap again when these go over the link within the downtime. It never
 * stops since much was written.
 */
struct precopy_forecast {
    uint64_t looks;    /* how many looks there are */
    uint64_t time;     /* from the start until the guest runs again, in microseconds */
    uint64_t bytes;    /* how many bytes of the guest are sent */
    uint64_t left;     /* how many of them are sent after the stop */
    uint64_t downtime; /* how long the guest stands still, with the reserve, in microseconds */
    uint32_t end;      /* of enum precopy_forecast_end */
    uint32_t kept;     /* of enum precopy_verdict: whether the downtime is within its limit, if few pages are left */
};

/*
 * Sets *forecast to what a migration comes to like QEMU, as the line `like QEMU` of `precopy-view predict --clark`
 * tells it.
 *
 * It tests what precopy_trace_predict does, in the same order. Of a question it does not use `first`, `increment`,
 * `rounds`, `skip` and `clark`. It takes 16 bytes for each write, and some 5 for each page.
 */
PRECOPY_ANSWERS PRECOPY_NOT_NULL(1, 2, 3)
uint32_t precopy_trace_forecast(const struct precopy_trace *trace, const struct precopy_question *question,
                                struct precopy_forecast *forecast);

/* Down to which share of its link a migration has the verdict that it has at all of it. */
struct precopy_link_shares {
    uint64_t percent;   /* the least share from which on each whole per cent has that verdict; 50 to 100 */
    uint32_t converges; /* of enum precopy_verdict: whether it converges at all of the link */
    uint32_t below;     /* whether it does at one per cent less; the same if percent is 50, since that is not tried */
};

/*
 * Sets *shares to the shares of the link of a question that have one verdict, as the line `share of the link` of
 * `precopy-view predict` tells them. A hypervisor may reach less of a link than is asked.
 *
 * It tests what precopy_trace_predict does, in the same order. It takes memory as precopy_trace_plan does, and the time
 * of at most 51 plans.
 */
PRECOPY_ANSWERS PRECOPY_NOT_NULL(1, 2, 3)
uint32_t precopy_trace_link_shares(const struct precopy_trace *trace, const struct precopy_question *question,
                                   struct precopy_link_shares *shares);

/*
 * From which starts a migration is tried: that of its question, and then one after the other, at a fixed spacing, as
 * `precopy-view when` does.
 */
struct precopy_starts {
    uint64_t size;      /* sizeof(struct precopy_starts), which grows if a version has more fields */
    uint64_t to;        /* the tick after which there is no other start, if has_to isn't 0; else the trace's last */
    uint64_t every;     /* the ticks from one start to the next, if has_every isn't 0; a spacing of 0 counts as 1 */
    uint32_t has_to;    /* 0: up to the last tick of the trace */
    uint32_t has_every; /* 0: a 200th of the ticks up to the last start, rounded up */
};

/* Starts to begin with: at most 201, from that of the question to the last tick of the trace. */
#define PRECOPY_STARTS_DEFAULT {sizeof(struct precopy_starts), 0, 0, 0, 0}

/*
 * The best start of a migration, and what it costs from there. If the migration ends within the trace from no start,
 * `kept` is unknown, and all else is 0.
 */
struct precopy_best_start {
    uint64_t start;     /* its tick */
    uint64_t rounds;    /* how many rounds or looks there are */
    uint64_t time;      /* from the start until the guest runs again, in microseconds */
    uint64_t bytes;     /* how many bytes of the guest are sent */
    uint64_t downtime;  /* how long the guest stands still, with the reserve, in microseconds */
    uint32_t kept;      /* of enum precopy_verdict: whether the downtime is within its limit */
    uint32_t is_likely; /* 0: the limit is not kept, or by rounds not with two standard errors of the downtime */
};

/*
 * Sets *best to the best start of the migration of a question, as `precopy-view when` tells it, and *errors to the
 * standard errors from there, or to zeros. A start that is likely to keep the limit is better than one that is not: it
 * keeps it, by rounds with two standard errors. Of two that are not, the one with the lower sum of these is better.
 * Then the one that sends less is, then the quicker one, and of equals the first.
 *
 * It tests what precopy_trace_predict does, in the same order, and then the starts, with PRECOPY_TOO_MANY_STARTS and
 * PRECOPY_BAD_START. It takes 16 bytes for each write, some 5 for each page, and memory for each start, and for
 * standard errors as precopy_trace_predict does. It takes the time of a plan for each start, and of 20 more for each
 * that is better than all before it if pages were sampled.
 */
PRECOPY_ANSWERS PRECOPY_NOT_NULL(1, 2, 3, 4, 5)
uint32_t precopy_trace_best_start(const struct precopy_trace *trace, const struct precopy_question *question,
                                  const struct precopy_starts *starts, struct precopy_best_start *best,
                                  struct precopy_errors *errors);

/* ---- traces that are written */

/*
 * How far a trace is that is written into lent bytes. After each call the first `length` bytes are a whole trace of
 * version 2, so nothing ends it, and what was written is not lost.
 */
struct precopy_recording {
    size_t length;      /* how many bytes the trace has */
    uint64_t last_tick; /* the tick of its last write, or 0 if there is none */
    uint32_t writes;    /* how many writes it has */
    uint32_t pages;     /* how many pages its guest has */
    uint32_t shift;     /* a page has 2^shift bytes */
};

/*
 * Begins a trace at the front of some bytes, of a guest that has not written, and sets *recording. It has 16 bytes.
 *
 * It returns PRECOPY_BAD_SHIFT or PRECOPY_BAD_PAGES for sizes that no guest has, and PRECOPY_SHORT_BUFFER if there are
 * fewer bytes. It takes no memory.
 */
PRECOPY_ANSWERS PRECOPY_NOT_NULL(5)
uint32_t precopy_record_begin(uint8_t *trace, size_t trace_length, uint32_t shift, uint32_t pages,
                              struct precopy_recording *recording);

/*
 * Appends a write to the trace: at `tick`, some bytes from an offset of a page on. The trace gets 16 bytes more than
 * the write has. The trace and *recording are as the calls before left them; else any of the lent bytes may change.
 *
 * A write of no bytes is PRECOPY_EMPTY_WRITE, before all else: a release has a call of its own. A write after which
 * the bytes would be no trace is refused: PRECOPY_TOO_LONG, PRECOPY_TOO_MANY_WRITES, and then PRECOPY_TICK_ORDER to
 * PRECOPY_OUT_OF_PAGE, whose record is the number `writes`. Last comes PRECOPY_SHORT_BUFFER. It takes no memory.
 */
PRECOPY_ANSWERS PRECOPY_NOT_NULL(3)
uint32_t precopy_record_write(uint8_t *trace, size_t trace_length, struct precopy_recording *recording, uint64_t tick,
                              uint32_t page, uint32_t offset, const uint8_t *bytes, size_t bytes_length);

/*
 * Appends a write that releases a page: from then on it is zeros. The trace gets 16 bytes more. It is refused as
 * another write is. It takes no memory.
 */
PRECOPY_ANSWERS PRECOPY_NOT_NULL(3)
uint32_t precopy_record_release(uint8_t *trace, size_t trace_length, struct precopy_recording *recording, uint64_t tick,
                                uint32_t page);

/* Returns whether each byte is 0; with no bytes it is true. It takes no memory. */
PRECOPY_ANSWERS
bool precopy_is_zero(const uint8_t *bytes, size_t bytes_length);

#ifdef __cplusplus
}
#endif

#endif
