/*
 * Memory between guard pages, for the buffers of a call, as checks/library/fences.c tells.
 */
#include "precopy.h"

#include <stdint.h>
#include <stdio.h>
#include <stdlib.h>
#include <string.h>
#include <sys/mman.h>
#include <unistd.h>

#define PATTERN 0xA5
#define FRONT 64
#define MOST_BUFFERS 9

/* A buffer of a call, and the memory between two guard pages in which it lies meanwhile. */
struct room {
    void *of;    /* the caller's, if the call may write it */
    uint8_t *at; /* where it lies meanwhile */
    size_t length;
    uint8_t *mapped; /* the page in front */
    size_t inside;   /* how many bytes are between the pages */
};

struct fences {
    struct room rooms[MOST_BUFFERS];
    size_t count;
};

static size_t page_size(void) { return (size_t)sysconf(_SC_PAGESIZE); }

static void stop(const char *what) {
    fprintf(stderr, "FAILED fences: %s\n", what);
    abort();
}

static struct room *fenced(struct fences *fences, const void *bytes, size_t length) {
    size_t page = page_size(), inside = (length + FRONT + page - 1) / page * page;
    const char *side = getenv("FENCE");
    uint8_t *mapped = mmap(NULL, inside + 2 * page, PROT_NONE, MAP_PRIVATE | MAP_ANONYMOUS, -1, 0);
    if (fences->count == MOST_BUFFERS || mapped == MAP_FAILED
        || mprotect(mapped + page, inside, PROT_READ | PROT_WRITE)) {
        stop("a buffer has no guard pages");
    }
    uint8_t *at = mapped + page + (side && !strcmp(side, "front") ? 0 : inside - length);
    memset(mapped + page, PATTERN, inside);
    memcpy(at, bytes, length);
    fences->rooms[fences->count] = (struct room){NULL, at, length, mapped, inside};
    return &fences->rooms[fences->count++];
}

/* A buffer that a call reads. A null pointer stays one. */
static const void *read_only(struct fences *fences, const void *bytes, size_t length) {
    if (!bytes) {
        return NULL;
    }
    struct room *room = fenced(fences, bytes, length);
    if (mprotect(room->mapped + page_size(), room->inside, PROT_READ)) {
        stop("a buffer can be written");
    }
    return room->at;
}

/* A buffer that a call may write. */
static void *writable(struct fences *fences, void *bytes, size_t length) {
    if (!bytes) {
        return NULL;
    }
    struct room *room = fenced(fences, bytes, length);
    room->of = bytes;
    return room->at;
}

static int is_pattern(const uint8_t *at, const uint8_t *end) {
    while (at < end && *at == PATTERN) {
        at++;
    }
    return at == end;
}

/* Gives the caller what a call wrote, and its status. */
static uint32_t given_back(struct fences *fences, uint32_t status) {
    for (struct room *room = fences->rooms; room < fences->rooms + fences->count; room++) {
        const uint8_t *begin = room->mapped + page_size(), *end = room->at + room->length;
        if (!is_pattern(begin, room->at) || !is_pattern(end, begin + room->inside)) {
            stop("a call wrote beside a buffer");
        }
        if (room->of) {
            memcpy(room->of, room->at, room->length);
        }
        munmap(room->mapped, room->inside + 2 * page_size());
    }
    return status;
}

/* The call itself, and the one that programs make in its place. */
#define FENCED(name) extern __typeof__(precopy_##name) __real_precopy_##name, __wrap_precopy_##name
/* Buffers of some elements, in a call whose fences are `all`. */
#define IN(at, count) read_only(&all, at, (count) * sizeof *(at))
#define OUT(at, count) writable(&all, at, (count) * sizeof *(at))
