/*
 * A migration engine that uses nothing of precopy: it moves its own memory to destination.c over sockets while threads
 * write to it, and is instrumented so that its migrations can be tested.
 *
 *     cc -pthread -o sender examples/c/sender.c
 *     cc -pthread -o destination examples/c/destination.c
 *     mkdir run; ./destination run 1024 2 & ./sender run 1024 2 4
 *
 * It sends all pages, and then in rounds those that were written since. Then it stops the threads, and sends the rest.
 * It leaves all writes in run/trace.pcwt, and its memory at the stop in run/source. destination.c leaves the frames as
 * they came in run/stream.0 and so on, and its memory in run/memory.
 *
 * The kernel protects pages by userfaultfd. At a write it takes the protection away, and the writer goes on at once
 * (Linux 6.7); or it asks a thread of this process to do so (Linux 5.13). So a page without protection was written.
 * From this alone the engine knows what to send.
 *
 * Why the trace and the stamps are true:
 *
 * - Memory changes only in write_memory, under the lock of the page. There a write also takes its place, the next
 *   number of one counter, so a page's writes have places in their order. Writes to two pages have no byte in common.
 * - A page is copied under its lock, together with its stamp, the place of its last write. So the copy has what the
 *   writes up to the stamp leave, and nothing of a later one. (Without the lock half a write may be copied. The page
 *   then has no protection, and is sent again.)
 * - At the stop no thread is in write_memory, so each place up to the counter's has its write in the log.
 * - A tick is a millisecond. The clock is read after the place is taken, so a later place may have an earlier time. In
 *   the trace a write has the greatest time up to its place.
 */
#define _GNU_SOURCE
#include <err.h>
#include <fcntl.h>
#include <linux/userfaultfd.h>
#include <pthread.h>
#include <signal.h>
#include <stdatomic.h>
#include <stdbool.h>
#include <stddef.h>
#include <stdint.h>
#include <stdio.h>
#include <stdlib.h>
#include <string.h>
#include <sys/ioctl.h>
#include <sys/mman.h>
#include <sys/socket.h>
#include <sys/syscall.h>
#include <sys/un.h>
#include <time.h>
#include <unistd.h>

enum {
    PAGE = 4096,
    MOST_PAGES = 1 << 16,
    MOST_THREADS = 16,
    MOST_WRITES = 1 << 20,
    MOST_ROUNDS = 12,
    MOST_IN_ROUND = 30000,  /* writes, so that the log has room for those of all rounds */
    FEW = 16,               /* a round of so few pages is the last one before the stop */
    ASYNCHRONOUS = 1 << 15, /* UFFD_FEATURE_WP_ASYNC, which older headers lack */
    PROTECTED = 57,         /* the bit of a page's entry in /proc/self/pagemap */
};

static enum { KERNEL, THREAD } tracking; /* who takes the protection away at a write */
static const char *const trackings[] = {"kernel", "thread"};

/* A frame and a record of the trace, as in files: processors that have userfaultfd are little-endian. */
struct frame {
    uint32_t page, stamp;
    uint8_t kind, bytes[PAGE];
};
struct record {
    uint64_t tick;
    uint32_t page;
    uint16_t offset, length;
    uint8_t bytes[16];
};

static uint32_t pages, stream_count, writer_count;
static uint8_t *memory;
static int watcher, pagemap;                      /* a userfaultfd, and /proc/self/pagemap */
static uint32_t listed[MOST_PAGES], listed_count; /* the pages of a round */
static FILE *streams[MOST_THREADS];
static pthread_t writers[MOST_THREADS], senders[MOST_THREADS];
static atomic_bool stopping;

/* The instrumentation: what page locks guard, and the log. */
static pthread_mutex_t locks[MOST_PAGES];
static uint32_t stamps[MOST_PAGES];
static struct record records[MOST_WRITES];
static atomic_uint places, last_place; /* last_place: the threads wait there for the next round */
static uint64_t began;                 /* milliseconds of the clock */

static uint64_t milliseconds(void) {
    struct timespec now;
    clock_gettime(CLOCK_MONOTONIC, &now);
    return (uint64_t)now.tv_sec * 1000 + (uint64_t)now.tv_nsec / 1000000 - began;
}

static pthread_t started(void *(*run)(void *), void *argument) {
    pthread_t thread;
    if (pthread_create(&thread, NULL, run, argument) != 0) errx(1, "a thread did not start");
    return thread;
}

static void write_memory(struct record write) {
    pthread_mutex_lock(&locks[write.page]);
    uint32_t place = atomic_fetch_add(&places, 1);
    write.tick = milliseconds();
    records[place] = write;
    memcpy(memory + write.page * PAGE + write.offset, write.bytes, write.length);
    stamps[write.page] = place + 1;
    pthread_mutex_unlock(&locks[write.page]);
}

/* Writes low pages often, and high ones hardly ever. */
static void *write_until_stopped(void *seed) {
    unsigned short state[3] = {(unsigned short)(uintptr_t)seed, 1, 2};
    while (!atomic_load(&stopping)) {
        for (int count = 0; count < 64 && places < last_place; count++) {
            struct record write = {.length = (uint16_t)(1 + nrand48(state) % 16)};
            write.page = (uint32_t)(erand48(state) * erand48(state) * erand48(state) * pages);
            write.offset = (uint16_t)(nrand48(state) % (PAGE - 15));
            for (int i = 0; i < write.length; i++) write.bytes[i] = (uint8_t)nrand48(state);
            write_memory(write);
        }
        usleep(500);
    }
    return NULL;
}

static void start_writers(uintptr_t seed) {
    atomic_store(&stopping, false);
    for (uint32_t i = 0; i < writer_count; i++) writers[i] = started(write_until_stopped, (void *)(seed + i));
}

/* Lets the threads write, and waits until they have done so this often, however little time they get. */
static void await_writes(uint32_t count) {
    uint32_t enough = places + count;
    last_place = places + MOST_IN_ROUND;
    while (places < enough) usleep(100);
}

static void stop_writers(void) {
    atomic_store(&stopping, true);
    for (uint32_t i = 0; i < writer_count; i++) pthread_join(writers[i], NULL);
}

static void write_trace(const char *name) {
    uint32_t header[4] = {0x54574350 /* PCWT */, 12 << 8 | 1 /* pages of 2^12 bytes, version 1 */, pages, places};
    uint64_t latest = 0;
    FILE *file = fopen(name, "wb");
    if (!file || fwrite(header, sizeof header, 1, file) != 1) err(1, "%s", name);
    for (struct record *record = records; record < records + places; record++) {
        latest = record->tick = record->tick > latest ? record->tick : latest;
        fwrite(record, offsetof(struct record, bytes) + record->length, 1, file);
    }
    if (ferror(file) | fclose(file)) err(1, "%s", name);
}

static void protect(uint64_t page, uint64_t mode) {
    struct uffdio_writeprotect ask = {{(uintptr_t)memory + page * PAGE, PAGE}, mode};
    if (ioctl(watcher, UFFDIO_WRITEPROTECT, &ask) != 0) err(1, "UFFDIO_WRITEPROTECT");
}

static void *answer_faults(void *unused) {
    struct uffd_msg fault;
    while (read(watcher, &fault, sizeof fault) == sizeof fault)
        protect((fault.arg.pagefault.address - (uintptr_t)memory) / PAGE, 0);
    return unused;
}

/* Has the kernel watch memory, and returns whether it can. No page is protected yet. */
static bool watch_memory(void) {
    struct uffdio_api api = {UFFD_API, UFFD_FEATURE_PAGEFAULT_FLAG_WP | (tracking == KERNEL ? ASYNCHRONOUS : 0), 0};
    struct uffdio_register all = {{(uintptr_t)memory, (uint64_t)pages * PAGE}, UFFDIO_REGISTER_MODE_WP, 0};
    watcher = (int)syscall(SYS_userfaultfd, O_CLOEXEC | UFFD_USER_MODE_ONLY);
    pagemap = open("/proc/self/pagemap", O_RDONLY | O_CLOEXEC);
    if (watcher >= 0 && !ioctl(watcher, UFFDIO_API, &api) && !ioctl(watcher, UFFDIO_REGISTER, &all) && pagemap >= 0)
        return tracking == KERNEL || started(answer_faults, NULL);
    warn("pages cannot be watched so that the %s takes protections away", trackings[tracking]);
    return false;
}

/* Lists the pages that were written since they were protected. */
static void list_written(void) {
    static uint64_t entries[MOST_PAGES];
    size_t length = pages * sizeof *entries;
    if (pread(pagemap, entries, length, (off_t)((uintptr_t)memory / PAGE * sizeof *entries)) != (ssize_t)length)
        err(1, "/proc/self/pagemap");
    listed_count = 0;
    for (uint32_t page = 0; page < pages; page++) {
        if (!(entries[page] >> PROTECTED & 1)) listed[listed_count++] = page;
    }
}

static void send_page(FILE *stream, uint32_t page) {
    struct frame frame = {.page = page};
    pthread_mutex_lock(&locks[page]);
    memcpy(frame.bytes, memory + page * PAGE, PAGE);
    frame.stamp = stamps[page];
    pthread_mutex_unlock(&locks[page]);
    frame.kind = frame.bytes[0] != 0 || memcmp(frame.bytes, frame.bytes + 1, PAGE - 1) != 0;
    if (fwrite(&frame, offsetof(struct frame, bytes) + frame.kind * PAGE, 1, stream) != 1)
        err(1, "the destination is gone");
}

/* Sends the listed pages of a stream. A page always has the same stream, so its frames come in order. */
static void *send_listed(void *stream) {
    size_t number = (uintptr_t)stream;
    for (size_t at = 0; at < listed_count; at++) {
        if (listed[at] % stream_count == number) send_page(streams[number], listed[at]);
    }
    return NULL;
}

/* Sends what was written since the last round, and returns how many pages that are. */
static size_t send_round(void) {
    list_written();
    for (size_t at = 0; at < listed_count; at++) protect(listed[at], UFFDIO_WRITEPROTECT_MODE_WP);
    for (size_t i = 0; i < stream_count; i++) senders[i] = started(send_listed, (void *)i);
    for (size_t i = 0; i < stream_count; i++) pthread_join(senders[i], NULL);
    return listed_count;
}

static FILE *connected(void) {
    struct sockaddr_un to = {AF_UNIX, "socket"};
    int made = socket(AF_UNIX, SOCK_STREAM | SOCK_CLOEXEC, 0);
    for (int tries = 0; connect(made, (struct sockaddr *)&to, sizeof to) != 0; tries++) {
        if (tries == 500) err(1, "the destination does not listen");
        usleep(10000);
    }
    return fdopen(made, "wb");
}

/* Returns the number of rounds before the stop. */
static int migrate(void) {
    int rounds = 1;
    for (; send_round() > FEW && rounds < MOST_ROUNDS; rounds++) await_writes(200);
    stop_writers();
    send_round();
    for (size_t i = 0; i < stream_count; i++) {
        char answer;
        if (fflush(streams[i]) || shutdown(fileno(streams[i]), SHUT_WR) || read(fileno(streams[i]), &answer, 1) != 1)
            err(1, "the destination did not take all");
    }
    return rounds;
}

int main(int argc, char **argv) {
    if (argc == 5 || (argc == 6 && (!strcmp(argv[5], trackings[KERNEL]) || !strcmp(argv[5], trackings[THREAD]))))
        pages = (uint32_t)atoi(argv[2]), stream_count = (uint32_t)atoi(argv[3]), writer_count = (uint32_t)atoi(argv[4]);
    if (pages - 1 >= MOST_PAGES || stream_count - 1 >= MOST_THREADS || writer_count - 1 >= MOST_THREADS)
        errx(2, "usage: sender FOLDER PAGES STREAMS WRITERS [kernel|thread], up to 65,536 pages, and 16 of the others");
    if (sysconf(_SC_PAGESIZE) != PAGE) errx(3, "pages of this kernel do not have 4,096 bytes");
    memory = mmap(NULL, pages * PAGE, PROT_READ | PROT_WRITE, MAP_PRIVATE | MAP_ANONYMOUS | MAP_POPULATE, -1, 0);
    if (memory == MAP_FAILED || chdir(argv[1]) != 0) err(1, "%s", argv[1]);
    for (tracking = argc == 6 && !strcmp(argv[5], trackings[THREAD]) ? THREAD : KERNEL; !watch_memory(); tracking++) {
        if (argc == 6 || tracking == THREAD) return 3;
    }
    for (uint32_t page = 0; page < pages; page++) pthread_mutex_init(&locks[page], NULL);
    for (uint32_t i = 0; i < stream_count; i++) streams[i] = connected();
    signal(SIGPIPE, SIG_IGN);
    began = milliseconds();
    start_writers(1);
    await_writes(2000);
    int rounds = migrate();
    uint32_t stop = places;
    uint64_t tick = milliseconds() + 1;
    FILE *source = fopen("source", "wb");
    if (!source || fwrite(memory, PAGE, pages, source) != pages || fclose(source) != 0) err(1, "source");
    /* The source goes on for a while. What is written now is none of the migration's. */
    while (milliseconds() < tick) usleep(500);
    start_writers(1 + MOST_THREADS);
    await_writes(1000);
    stop_writers();
    write_trace("trace.pcwt");
    printf("stopped at tick %ju, after %u of %u writes and %d rounds; the %s takes protections away\n", (uintmax_t)tick,
           stop, places, rounds, trackings[tracking]);
    return 0;
}
