/* A wrong program around a right one: the program, or for the wrongs of calls that of crates/refused_calls.
 * checks/wrongs compiles it once for each of the wrongs below, as with
 *
 *     cc -DPROGRAM='"/path/of/precopy"' -DWRONG=E16_ANSWERED -o wrong wrong.c
 *
 * It runs PROGRAM with its own words, input and environment, takes what PROGRAM writes, and does something wrong with
 * it. checks/refusals/refuse.c, which is preloaded here too, does not affect it: it reads and writes by system calls,
 * and asks for no memory, except in ASKING_AGAIN and CARELESS.
 */
#define _GNU_SOURCE
#include <signal.h>
#include <stdlib.h>
#include <string.h>
#include <sys/mman.h>
#include <sys/syscall.h>
#include <sys/wait.h>
#include <unistd.h>

enum wrong {
    NOTHING,         /* what the program gives, as it is */
    MEMORY_ANSWERED, /* the whole output in place of each `memory` */
    E16_ANSWERED,    /* the whole output in place of each `trace E16` */
    LIVE_ANSWERED,   /* the whole output in place of each refusal of a live run */
    ONE_ANSWERED,    /* the whole output if only the 30th growth is refused */
    READ_ANSWERED,   /* the whole output in place of a failed read */
    SILENT,          /* status 0 and no output in place of a refusal */
    REFUSING,        /* a refusal always */
    LAST_CHANGED,    /* the last byte of output is another one */
    OUTPUT_BESIDE,   /* a byte of output beside a refusal */
    SIGNALLED,       /* death by a signal in place of a refusal */
    OTHER_LINE,      /* another line in place of `memory` */
    ONE_MORE,        /* a byte more if a write is refused */
    ONE_LESS,        /* a byte less if a write is refused */
    TWICE,           /* the line of a refusal written twice */
    ASKING_AGAIN,    /* a growth of its own, which it asks for again if it is refused */
    CARELESS,        /* a growth of its own, without which it goes on */
    CALL_NOTHING,    /* what the calls give, as it is */
    CALL_REFUSING,   /* a call that is refused always */
    CALL_ANSWERED,   /* the whole output in place of a call's refusal */
    CALL_FORGETFUL,  /* nothing is left after a call's refusal, until it is made again */
    CALL_STUCK,      /* a call that was refused is refused with ample memory too */
    CALL_PAST,       /* a frame after the refused one is named */
    CALL_STALE,      /* after a refusal the cache gives other bytes of a page */
    CALL_MEMORY,     /* want of memory in place of a thread that was not started */
    CALL_THREAD,     /* a thread that was not started in place of want of memory */
    CALL_SIGNALLED,  /* death by a signal in place of a call's refusal */
    EXCHANGED,       /* NEW in the place of OLD, in what is written for the word WHEN */
    COUNTED_ON,      /* another digit behind OLD, in what is written for the word WHEN */
    BYTE_CHANGED,    /* another last byte of what is written for the word WHEN */
    REFUSED,         /* the refusal NEW, whatever comes, for the word WHEN */
    REFUSED_FOR,     /* the refusal NEW in place of each refusal, for the word WHEN */
    DROPPED,         /* the word OLD taken away from the command */
    STATUS_CHANGED,  /* another status, for the word WHEN */
    HELPLESS,        /* `live L2` if the second thread is not started, for the word WHEN */
};

/* The word of a command at which something is wrong, and the texts that are exchanged. */
#ifndef WHEN
#define WHEN ""
#endif
#ifndef OLD
#define OLD ""
#endif
#ifndef NEW
#define NEW ""
#endif

static char output[1 << 26], faults[1 << 18];
static size_t output_size, fault_size;
static int status; /* as `wait` gives it */

static size_t take(int file, char *room, size_t size) {
    size_t taken = 0;
    ssize_t more;
    while (taken < size && (more = syscall(SYS_read, file, room + taken, size - taken)) > 0) taken += more;
    return taken;
}

static int put(int file, const char *bytes, size_t size) {
    while (size) {
        ssize_t more = syscall(SYS_write, file, bytes, size);
        if (more <= 0) return 0;
        bytes += more, size -= more;
    }
    return 1;
}

/* Runs the program, with nothing refused if `is_plain`. */
static void run(char **words, int is_plain) {
    int to[2], told = memfd_create("faults", MFD_CLOEXEC);
    if (told < 0 || pipe(to)) _exit(99);
    lseek(STDIN_FILENO, 0, SEEK_SET);
    pid_t child = fork();
    if (child < 0) _exit(99);
    if (!child) {
        char *none[] = {NULL};
        dup2(to[1], STDOUT_FILENO), dup2(told, STDERR_FILENO), close(to[0]), close(to[1]);
        if (is_plain) execve(PROGRAM, words, none);
        /* What the child is refused, the counts that the check looks at do not tell. */
        if (WRONG == CALL_REFUSING)
            setenv("REFUSE_GROWTH", "1", 1), setenv("REFUSE_ON", "1", 1), unsetenv("REFUSE_COUNTS");
        execv(PROGRAM, words);
        _exit(98);
    }
    close(to[1]);
    output_size = take(to[0], output, sizeof output);
    close(to[0]);
    waitpid(child, &status, 0);
    lseek(told, 0, SEEK_SET);
    fault_size = take(told, faults, sizeof faults);
    close(told);
}

static int tells(const char *line) { return fault_size == strlen(line) && !memcmp(faults, line, fault_size); }

static void refuse(const char *line) {
    output_size = 0, fault_size = strlen(line), status = 1 << 8;
    memcpy(faults, line, fault_size);
}

/* Where a text is in the output. */
static char *place_of(const char *text) { return memmem(output, output_size, text, strlen(text)); }

/* Whether a call was refused, as the output tells it. */
static int is_refused_call(void) { return place_of("Memory") || place_of("Thread"); }

/* Puts one text in the place of another, of the same length, once. */
static void exchange(const char *old, const char *new) {
    char *place = place_of(old);
    if (place) memcpy(place, new, strlen(new));
}

/* Takes away all lines from the third on up to that which tells of the second call. */
static void forget(void) {
    char *again = place_of("\nagain"), *ready = memchr(output, '\n', output_size);
    if (!again || !ready || ready == again) return;
    char *first = memchr(ready + 1, '\n', again + 1 - ready);
    memmove(first, again, output + output_size - again);
    output_size -= again - first;
}

/* Ends the output by a refusal of the second call. */
static void refuse_again(void) {
    char *again = place_of("\nagain");
    const char *line = "\nagain Err(Memory)\n";
    if (!again) return;
    memcpy(again, line, strlen(line));
    output_size = again - output + strlen(line);
}

static void do_wrong_to_call(void) {
    char *frame = place_of("Err((");
    if (WRONG == CALL_FORGETFUL) forget();
    if (WRONG == CALL_STUCK) refuse_again();
    if (WRONG == CALL_PAST && frame) frame[strlen("Err((")]++;
    if (WRONG == CALL_STALE) exchange("again page 1 version 3 [3", "again page 1 version 3 [0");
    if (WRONG == CALL_MEMORY) exchange("final_copy Thread", "final_copy Memory");
    if (WRONG == CALL_THREAD) exchange("final_copy Memory", "final_copy Thread");
    if (WRONG == CALL_SIGNALLED) status = SIGKILL;
}

static int is_named(const char *name, int wanted) { return getenv(name) && atoi(getenv(name)) == wanted; }

/* Whether the whole output is to come in place of what came. */
static int answers(int is_refused) {
    switch (WRONG) {
    case MEMORY_ANSWERED:
        return tells("precopy: memory\n");
    case E16_ANSWERED:
        return tells("precopy: trace E16\n");
    case LIVE_ANSWERED:
        return tells("precopy: live L1\n") || tells("precopy: live L2\n");
    case ONE_ANSWERED:
        return is_refused && is_named("REFUSE_GROWTH", 30) && !is_named("REFUSE_ON", 1);
    case READ_ANSWERED:
        return tells("precopy: trace E17\n");
    case CALL_ANSWERED:
        return is_refused_call();
    default:
        return 0;
    }
}

static void do_wrong(int is_refused) {
    int is_write = tells("precopy: write\n");
    if (WRONG == SILENT && is_refused) output_size = fault_size = status = 0;
    if (WRONG == REFUSING && !is_refused) refuse("precopy: memory\n");
    if (WRONG == LAST_CHANGED && output_size) output[output_size - 1] ^= 1;
    if (WRONG == OUTPUT_BESIDE && is_refused && !is_write) output[output_size++] = 'x';
    if (WRONG == SIGNALLED && is_refused) status = SIGKILL;
    if (WRONG == OTHER_LINE && tells("precopy: memory\n")) refuse("precopy: the heap\n");
    if (WRONG == ONE_MORE && is_write) output[output_size++] = 'x';
    if (WRONG == ONE_LESS && is_write && output_size) output_size--;
    if (WRONG == TWICE && is_refused) memcpy(faults + fault_size, faults, fault_size), fault_size *= 2;
    if (WRONG > CALL_NOTHING && is_refused_call()) do_wrong_to_call();
}

/* Puts a text in the place of another one of any length. */
static size_t put_text(char *in, size_t size, size_t room) {
    char *place = size ? memmem(in, size, OLD, strlen(OLD)) : NULL;
    size_t old = strlen(OLD), new = strlen(NEW);
    if (!place || size + new > room) return size;
    memmove(place + new, place + old, in + size - (place + old));
    memcpy(place, NEW, new);
    return size + new - old;
}

static int has_word(char **words, const char *word) {
    for (; *words; words++)
        if (!strcmp(*words, word)) return 1;
    return !*word;
}

static void drop_word(char **words) {
    while (*words && strcmp(*words, OLD)) words++;
    for (; *words; words++) *words = words[1];
}

static void do_wrong_to_text(int is_refused) {
    if (WRONG == EXCHANGED) {
        output_size = put_text(output, output_size, sizeof output);
        fault_size = put_text(faults, fault_size, sizeof faults);
    }
    if (WRONG == COUNTED_ON) {
        char *place = place_of(OLD);
        if (place) {
            place += strlen(OLD);
            *place = *place == '9' ? '8' : *place + 1;
        }
    }
    if (WRONG == BYTE_CHANGED && output_size) output[output_size - 1] ^= 1;
    if (WRONG == STATUS_CHANGED && WIFEXITED(status)) status = (WEXITSTATUS(status) ^ 8) << 8;
    if (WRONG == REFUSED || (WRONG == REFUSED_FOR && is_refused)) refuse(NEW);
    if (WRONG == HELPLESS && !is_refused && is_named("REFUSE_THREAD", 2)) refuse("precopy: live L2\n");
}

int main(int count, char **words) {
    (void)count;
    signal(SIGPIPE, SIG_IGN);
    volatile char *own = NULL;
    if (WRONG == ASKING_AGAIN || WRONG == CARELESS) own = malloc(96);
    if (WRONG == ASKING_AGAIN && !own) own = malloc(96);
    if (own) *own = 1;
    int is_meant = has_word(words, WHEN);
    if (WRONG == DROPPED && is_meant) drop_word(words);
    run(words, 0);
    int is_refused = WIFEXITED(status) && WEXITSTATUS(status) == 1;
    if (answers(is_refused))
        run(words, 1);
    else
        do_wrong(is_refused);
    if (is_meant) do_wrong_to_text(WIFEXITED(status) && WEXITSTATUS(status) != 0);
    if (!put(STDOUT_FILENO, output, output_size)) refuse("precopy: write\n");
    put(STDERR_FILENO, faults, fault_size);
    if (WIFSIGNALED(status)) kill(getpid(), WTERMSIG(status));
    return WEXITSTATUS(status);
}
