/* Stands between a program and the C library, and refuses what the program asks for.
 *
 *     cc -shared -fPIC -O2 -o refuse.so refuse.c
 *     REFUSE_GROWTH=17 LD_PRELOAD=./refuse.so PROGRAM ..
 *
 * Each variable is a number, counted from 1; one that is missing, empty or 0 refuses nothing.
 *
 *     REFUSE_GROWTH=N   the Nth growth of memory: NULL, or ENOMEM
 *     REFUSE_THREAD=N   the Nth start of a thread: EAGAIN
 *     REFUSE_INNER=N    the Nth growth that the C library asks for itself, as for a thread, after the program's first
 *     REFUSE_READ=N     the Nth read of standard input: -1 with EIO
 *     REFUSE_WRITE=N    the Nth write to standard output: -1 with EIO
 *     ZERO_WRITE=N      the Nth write to standard output takes no byte: 0
 *     REFUSE_FAULTS=N   the Nth write to standard error: -1 with EIO
 *     BREAK_READ=N      the Nth read of standard input: -1 with EINTR; so for BREAK_WRITE
 *     REFUSE_ON=1       what is refused is refused from then on, and not once
 *     REFUSE_WITHIN=1   growths and starts of threads count only after the first write to standard output, and until
 *                       the second one begins: for a program that prints a line, makes a call, and prints the next
 *     ONE_BYTE=1        reads of standard input and writes to standard output move one byte a call
 *     REFUSE_COUNTS=F   the counts are in the file F, of 4096 bytes at least, as numbers of 8 bytes: growths,
 *                       threads, inner growths, reads, writes, writes to standard error, refusals, 0. They are right
 *                       at each moment, so also if the program dies. After them comes what was refused, `struct told`.
 *
 * Growths and starts of threads are counted where the program's own code calls: what the C library asks for at its
 * start, or for itself, is no growth of the program. Calls are counted over all threads together.
 *
 * Who asked is read off the stack: the addresses there that a call may have left, as the program's code has no tables
 * to walk it by. The first is where the call returns to. After the callers of small frames, others may be left over.
 *
 * A thread is told by the function that it runs. The program asks for room right before it starts a thread, so where a
 * thread starts, the place that asked for its room is told too: a growth that is refused there would have started one.
 */
#define _GNU_SOURCE
#include <dlfcn.h>
#include <errno.h>
#include <fcntl.h>
#include <link.h>
#include <pthread.h>
#include <stdatomic.h>
#include <stddef.h>
#include <stdint.h>
#include <stdlib.h>
#include <sys/mman.h>
#include <sys/syscall.h>
#include <sys/uio.h>
#include <unistd.h>

extern void *__libc_malloc(size_t);
extern void *__libc_calloc(size_t, size_t);
extern void *__libc_realloc(void *, size_t);
extern void *__libc_memalign(size_t, size_t);

enum { GROWTH, THREAD, INNER, READ, WRITE, FAULTS, REFUSED, COUNTS };
enum { ADDRESSES = 6, STACK_WORDS = 64, STARTS = 64 };

/* A growth: its size, whether it moves an older room, and who asked, in bytes from the program's first byte. */
struct growth {
    uint64_t size, moves, callers[ADDRESSES];
};

/* A start of a thread: the place that asked for its room, and the function that it runs, in bytes as above. */
struct start {
    uint64_t asked_at, function;
};

/* Of what was refused first, one more than its kind, and the function of the thread that was being started. If it is a
 * growth, that and the thread's next one. Then the program that told this, and the starts of threads that differ. */
struct told {
    _Atomic uint64_t kind;
    uint64_t function, is_next, is_granted;
    struct growth refused, next;
    char program[1024];
    _Atomic uint64_t started;
    struct start starts[STARTS];
};

struct report {
    _Atomic uint64_t counts[COUNTS + 1];
    struct told told;
};

static struct report own_report;
static struct told *told = &own_report.told;
static _Atomic uint64_t *counts = own_report.counts;
#define OF_THREAD static __thread __attribute__((tls_model("initial-exec")))
OF_THREAD int tells_next;
OF_THREAD uint64_t asked_at, starting; /* the place of its last growth, and the function of the thread that it starts */
static uint64_t refuse[COUNTS], zero_write, break_read, break_write;
static int refuse_on, refuse_within, one_byte;
static uintptr_t first, low, high; /* the program's first byte, and its own code */
static int (*start_thread)(pthread_t *, const pthread_attr_t *, void *(*)(void *), void *);

static uint64_t number(const char *name) {
    const char *text = getenv(name);
    return text ? strtoull(text, NULL, 10) : 0;
}

/* The first object that is told is the program itself. */
static int find_program(struct dl_phdr_info *info, size_t size, void *data) {
    (void)size, (void)data;
    first = info->dlpi_addr;
    for (int i = 0; i < info->dlpi_phnum; i++) {
        const ElfW(Phdr) *part = &info->dlpi_phdr[i];
        if (part->p_type == PT_LOAD && (part->p_flags & PF_X)) {
            uintptr_t from = info->dlpi_addr + part->p_vaddr;
            if (!low || from < low) low = from;
            if (from + part->p_memsz > high) high = from + part->p_memsz;
        }
    }
    return 1;
}

__attribute__((constructor)) static void begin(void) {
    start_thread = (__typeof__(start_thread))dlsym(RTLD_NEXT, "pthread_create");
    refuse[GROWTH] = number("REFUSE_GROWTH");
    refuse[THREAD] = number("REFUSE_THREAD");
    refuse[INNER] = number("REFUSE_INNER");
    refuse[READ] = number("REFUSE_READ");
    refuse[WRITE] = number("REFUSE_WRITE");
    refuse[FAULTS] = number("REFUSE_FAULTS");
    zero_write = number("ZERO_WRITE");
    break_read = number("BREAK_READ");
    break_write = number("BREAK_WRITE");
    refuse_on = number("REFUSE_ON") != 0;
    refuse_within = number("REFUSE_WITHIN") != 0;
    one_byte = number("ONE_BYTE") != 0;
    const char *path = getenv("REFUSE_COUNTS");
    if (path && *path) {
        int file = open(path, O_RDWR | O_CLOEXEC);
        void *at = file < 0 ? MAP_FAILED : mmap(NULL, sizeof own_report, PROT_READ | PROT_WRITE, MAP_SHARED, file, 0);
        if (at == MAP_FAILED) _exit(125); /* a run whose counts nobody sees would show nothing */
        counts = ((struct report *)at)->counts;
        told = &((struct report *)at)->told;
        close(file);
    }
    dl_iterate_phdr(find_program, NULL);
}

/* Whether the next call of a kind is one that `which` names. */
static int is_named(uint64_t which, uint64_t call) { return which && (call == which || (refuse_on && call > which)); }

static int refuses(int kind) {
    if (!is_named(refuse[kind], atomic_fetch_add(&counts[kind], 1) + 1)) return 0;
    atomic_fetch_add(&counts[REFUSED], 1);
    return 1;
}

/* Whether growths and starts of threads count now. */
static int is_within(void) { return !refuse_within || atomic_load(&counts[WRITE]) == 1; }

static int is_own(uintptr_t address) { return address >= low && address < high; }

/* Whether there may be a call right before an address. */
static int follows_call(uintptr_t address) {
    if (!is_own(address) || address < low + 7) return 0;
#ifdef __x86_64__
    const unsigned char *code = (const unsigned char *)address;
    if (code[-5] == 0xe8) return 1;
    for (int back = 2; back <= 7; back++)
        if (code[-back] == 0xff && (code[1 - back] & 0x38) == 0x10) return 1;
    return 0;
#else
    return 1;
#endif
}

/* `frame` is the frame of the function that was called: its caller's address is the second word there. */
static void tell(struct growth *growth, const uintptr_t *frame, size_t size, int moves) {
    growth->size = size;
    growth->moves = moves;
    for (int word = 1, at = 0; word < STACK_WORDS && at < ADDRESSES; word++)
        if (follows_call(frame[word])) growth->callers[at++] = frame[word] - first;
}

static void tell_program(void) {
    if (!*told->program) syscall(SYS_readlink, "/proc/self/exe", told->program, sizeof told->program - 1);
}

/* Whether what is refused is the first of all. Then its kind is told, and the thread that was being started. */
static int tells_first(int kind, uint64_t function) {
    uint64_t none = 0;
    if (!atomic_compare_exchange_strong(&told->kind, &none, kind + 1)) return 0;
    told->function = function;
    tell_program();
    return 1;
}

/* A growth that the C library asks for itself. */
static int refuses_inner(void) {
    if (!atomic_load(&counts[GROWTH]) || !refuses(INNER)) return 0;
    tells_first(INNER, starting);
    return 1;
}

static int refuses_growth(const uintptr_t *frame, size_t size, int moves) {
    if (!low) return 0;
    if (is_own(frame[1])) asked_at = frame[1] - first;
    if (!is_within()) return 0;
    if (!is_own(frame[1])) return refuses_inner();
    int is_refused = refuses(GROWTH);
    if (tells_next) {
        tells_next = 0;
        tell(&told->next, frame, size, moves);
        told->is_granted = !is_refused;
        told->is_next = 1;
    }
    if (is_refused && tells_first(GROWTH, 0)) {
        tells_next = 1;
        tell(&told->refused, frame, size, moves);
    }
    return is_refused;
}

#define REFUSES(size, moves) refuses_growth(__builtin_frame_address(0), size, moves)
#define OUT_OF_MEMORY (errno = ENOMEM, NULL)

void *malloc(size_t size) { return REFUSES(size, 0) ? OUT_OF_MEMORY : __libc_malloc(size); }

void *calloc(size_t count, size_t size) {
    return REFUSES(count * size, 0) ? OUT_OF_MEMORY : __libc_calloc(count, size);
}

void *realloc(void *old, size_t size) { return REFUSES(size, old != NULL) ? OUT_OF_MEMORY : __libc_realloc(old, size); }

void *memalign(size_t step, size_t size) { return REFUSES(size, 0) ? OUT_OF_MEMORY : __libc_memalign(step, size); }

void *aligned_alloc(size_t step, size_t size) { return REFUSES(size, 0) ? OUT_OF_MEMORY : __libc_memalign(step, size); }

int posix_memalign(void **place, size_t step, size_t size) {
    void *found = REFUSES(size, 0) ? NULL : __libc_memalign(step, size);
    if (!found) return ENOMEM;
    *place = found;
    return 0;
}

static void tell_start(void) {
    uint64_t count = atomic_load(&told->started);
    for (uint64_t at = 0; at < count && at < STARTS; at++)
        if (told->starts[at].asked_at == asked_at && told->starts[at].function == starting) return;
    uint64_t at = atomic_fetch_add(&told->started, 1);
    if (at < STARTS) told->starts[at] = (struct start){asked_at, starting};
    tell_program();
}

int pthread_create(pthread_t *thread, const pthread_attr_t *attributes, void *(*function)(void *), void *argument) {
    starting = (uintptr_t)function - first;
    int is_refused = is_within() && refuses(THREAD), failure = EAGAIN;
    if (is_refused) {
        tells_first(THREAD, starting);
    } else {
        tell_start();
        failure = start_thread(thread, attributes, function, argument);
    }
    starting = 0;
    return failure;
}

static ssize_t fail(int cause) {
    errno = cause;
    return -1;
}

static ssize_t broken(void) {
    atomic_fetch_add(&counts[REFUSED], 1);
    return fail(EINTR);
}

ssize_t read(int file, void *room, size_t size) {
    if (file == STDIN_FILENO) {
        if (refuses(READ)) return fail(EIO);
        if (is_named(break_read, atomic_load(&counts[READ]))) return broken();
        if (one_byte && size > 1) size = 1;
    }
    return syscall(SYS_read, file, room, size);
}

/* Whether a write goes through, and how much of it: answers 1, or 0 with the call's own answer. */
static int may_write(int file, size_t *size, ssize_t *answer) {
    if (file == STDERR_FILENO && refuses(FAULTS)) return *answer = fail(EIO), 0;
    if (file != STDOUT_FILENO) return 1;
    if (refuses(WRITE)) return *answer = fail(EIO), 0;
    uint64_t call = atomic_load(&counts[WRITE]);
    if (is_named(zero_write, call)) return atomic_fetch_add(&counts[REFUSED], 1), *answer = 0, 0;
    if (is_named(break_write, call)) return *answer = broken(), 0;
    if (one_byte && *size > 1) *size = 1;
    return 1;
}

ssize_t write(int file, const void *bytes, size_t size) {
    ssize_t answer;
    return may_write(file, &size, &answer) ? syscall(SYS_write, file, bytes, size) : answer;
}

ssize_t writev(int file, const struct iovec *parts, int count) {
    ssize_t answer;
    size_t size = SIZE_MAX;
    if (!may_write(file, &size, &answer)) return answer;
    if (size == SIZE_MAX) return syscall(SYS_writev, file, parts, count);
    for (int i = 0; i < count; i++)
        if (parts[i].iov_len) return syscall(SYS_write, file, parts[i].iov_base, size);
    return 0;
}
