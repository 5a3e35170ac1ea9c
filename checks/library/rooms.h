/*
 * Buffers full of one pattern, by which checks/library/library.c sees what a call has written. They are no memory of
 * the library's, and are not counted as such.
 */
#include <stdint.h>
#include <stdlib.h>
#include <string.h>

#define PATTERN 0xA5

void *__real_malloc(size_t size);
void __real_free(void *old);

struct room {
    uint8_t *at;
    size_t length;
};

static struct room room_of(size_t length) {
    struct room room = {__real_malloc(length + 1), length};
    if (!room.at) {
        exit(3);
    }
    memset(room.at, PATTERN, length);
    return room;
}

static struct room input_of(const void *bytes, size_t length) {
    struct room room = room_of(length);
    memcpy(room.at, bytes, length);
    return room;
}

static void drop(struct room *room) { __real_free(room->at); }

/* Whether the bytes from `from` on are untouched. */
static int is_untouched(const struct room *room, size_t from) {
    for (size_t at = from; at < room->length; at++) {
        if (room->at[at] != PATTERN) {
            return 0;
        }
    }
    return 1;
}
