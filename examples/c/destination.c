/*
 * The destination of sender.c: it takes frames from sockets into its memory, as they come.
 *
 *     ./destination FOLDER PAGES STREAMS
 *
 * It listens at FOLDER/socket. A thread for each stream keeps what comes in FOLDER/stream.0 and so on, in the order in
 * which they connect, and puts the bytes of each frame into memory. It looks at no stamp: the last frame of a page
 * stays. At the end of a stream it answers with a byte, and at the end of all it writes FOLDER/memory.
 */
#define _GNU_SOURCE
#include <err.h>
#include <pthread.h>
#include <stdint.h>
#include <stdio.h>
#include <stdlib.h>
#include <string.h>
#include <sys/socket.h>
#include <sys/un.h>
#include <unistd.h>

enum { PAGE = 4096, HEAD = 9, MOST_PAGES = 1 << 16, MOST_STREAMS = 16 };

struct stream {
    pthread_t thread;
    FILE *socket, *copy;
    uint32_t pages;
    uint8_t *memory;
};

/* Reads bytes of a stream, and keeps them. Returns how many there were. */
static size_t take(struct stream *stream, void *into, size_t length) {
    size_t came = fread(into, 1, length, stream->socket);
    if (fwrite(into, 1, came, stream->copy) != came) err(1, "a stream's file");
    return came;
}

static void *take_frames(void *argument) {
    struct stream *stream = argument;
    uint8_t head[HEAD], bytes[PAGE];
    size_t came;
    while ((came = take(stream, head, HEAD)) == HEAD) {
        uint32_t page;
        memcpy(&page, head, sizeof page);
        if (page >= stream->pages || head[8] > 1) errx(1, "a frame has page %u and kind %u", page, head[8]);
        memset(bytes, 0, PAGE);
        if (head[8] == 1 && take(stream, bytes, PAGE) != PAGE) errx(1, "a frame of page %u is cut off", page);
        memcpy(stream->memory + page * PAGE, bytes, PAGE);
    }
    if (came != 0) errx(1, "a frame is cut off");
    if (fclose(stream->copy) != 0 || write(fileno(stream->socket), "", 1) != 1 || fclose(stream->socket) != 0)
        err(1, "the end of a stream");
    return NULL;
}

/* Waits for the next stream, and takes it in a thread of its own. */
static void start(struct stream *stream, int listener, uint32_t number) {
    char name[32];
    snprintf(name, sizeof name, "stream.%u", number);
    stream->copy = fopen(name, "wb");
    stream->socket = fdopen(accept(listener, NULL, NULL), "rb");
    if (!stream->copy || !stream->socket || pthread_create(&stream->thread, NULL, take_frames, stream) != 0)
        err(1, "%s", name);
}

int main(int argc, char **argv) {
    if (argc != 4) errx(2, "usage: destination FOLDER PAGES STREAMS");
    uint32_t pages = (uint32_t)atoi(argv[2]), count = (uint32_t)atoi(argv[3]);
    if (pages - 1 >= MOST_PAGES || count - 1 >= MOST_STREAMS)
        errx(2, "it takes 1 to 65,536 pages, and 1 to 16 streams");
    struct sockaddr_un here = {AF_UNIX, "socket"};
    struct stream streams[MOST_STREAMS];
    uint8_t *memory = calloc(pages, PAGE);
    int listener = socket(AF_UNIX, SOCK_STREAM | SOCK_CLOEXEC, 0);
    if (!memory || chdir(argv[1]) != 0 || bind(listener, (struct sockaddr *)&here, sizeof here) != 0
        || listen(listener, MOST_STREAMS) != 0)
        err(1, "%s/socket", argv[1]);
    for (uint32_t i = 0; i < count; i++) {
        streams[i] = (struct stream){.pages = pages, .memory = memory};
        start(&streams[i], listener, i);
    }
    for (uint32_t i = 0; i < count; i++) pthread_join(streams[i].thread, NULL);
    FILE *file = fopen("memory", "wb");
    if (!file || fwrite(memory, PAGE, pages, file) != pages || fclose(file) != 0) err(1, "memory");
    unlink("socket");
    free(memory);
    return 0;
}
