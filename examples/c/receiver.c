/*
 * The receiving end of a migration: takes streams of frames from files, piece by piece and in turn, and writes the
 * memory that they leave to standard output.
 *
 *     cc -I include -o receiver examples/c/receiver.c out/library/libprecopy.a
 *     ./receiver SHIFT PAGES WRITES STREAM.. > memory
 *
 * A piece may end within a frame: what is left of it stays until the next piece comes.
 */
#include "precopy.h"

#include <stdio.h>
#include <stdlib.h>
#include <string.h>

/* How much is read at a time: odd, so that pieces end anywhere. */
#define PIECE 1021
/* The longest frame has 9 bytes and a page of 2^12. */
#define LONGEST (9 + (1 << 12))

struct stream {
    FILE *file;
    const char *name;
    uint8_t bytes[LONGEST + PIECE];
    size_t length; /* how many bytes came and are not yet taken */
};

struct guest {
    struct precopy_sizes sizes;
    uint8_t *memory;
    size_t memory_length;
    struct precopy_page *pages;
};

/* Reads the next piece of a stream, and takes the whole frames of what is there. Returns 0 at the end of the stream. */
static int take_piece(struct guest *guest, struct stream *stream) {
    size_t came = fread(stream->bytes + stream->length, 1, PIECE, stream->file);
    struct precopy_taken taken;
    stream->length += came;
    uint32_t status = precopy_accept(&guest->sizes, stream->bytes, stream->length, guest->memory, guest->memory_length,
                                     guest->pages, guest->sizes.pages, &taken);
    /* A frame that is cut off may continue in the next piece; at the end of the stream there is none. */
    if (status != PRECOPY_OK && (status != PRECOPY_FRAME_SHORT || came == 0)) {
        fprintf(stderr, "receiver: %s: %s\n", stream->name, precopy_strerror(status));
        exit(1);
    }
    stream->length -= taken.bytes;
    memmove(stream->bytes, stream->bytes + taken.bytes, stream->length);
    return came > 0;
}

static void take_all(struct guest *guest, struct stream *streams, int count) {
    int open = count;
    while (open > 0) {
        open = 0;
        for (int i = 0; i < count; i++) {
            if (streams[i].file && take_piece(guest, &streams[i])) {
                open++;
            } else if (streams[i].file) {
                fclose(streams[i].file);
                streams[i].file = NULL;
            }
        }
    }
}

int main(int argc, char **argv) {
    if (argc < 5) {
        fprintf(stderr, "usage: receiver SHIFT PAGES WRITES STREAM.. > memory\n");
        return 2;
    }
    struct guest guest = {{(uint32_t)atoi(argv[1]), (uint32_t)atoi(argv[2]), (uint32_t)atoi(argv[3])}, NULL, 0, NULL};
    if (guest.sizes.shift > 12) {
        fprintf(stderr, "receiver: %s\n", precopy_strerror(PRECOPY_BAD_SHIFT));
        return 1;
    }
    int count = argc - 4;
    struct stream *streams = calloc((size_t)count, sizeof *streams);
    guest.memory_length = (size_t)guest.sizes.pages << guest.sizes.shift;
    guest.memory = calloc(1, guest.memory_length + 1);
    guest.pages = calloc(guest.sizes.pages + (size_t)1, sizeof *guest.pages);
    if (!streams || !guest.memory || !guest.pages) {
        fprintf(stderr, "receiver: memory ran out\n");
        return 1;
    }
    for (int i = 0; i < count; i++) {
        streams[i].name = argv[4 + i];
        streams[i].file = fopen(argv[4 + i], "rb");
        if (!streams[i].file) {
            perror(argv[4 + i]);
            return 1;
        }
    }
    take_all(&guest, streams, count);

    size_t page;
    if (precopy_missing(guest.pages, guest.sizes.pages, &page) != PRECOPY_OK) {
        fprintf(stderr, "receiver: page %zu did not come\n", page);
        return 1;
    }
    size_t written = fwrite(guest.memory, 1, guest.memory_length, stdout);
    free(guest.memory);
    free(guest.pages);
    free(streams);
    return written == guest.memory_length && fflush(stdout) == 0 ? 0 : 1;
}
