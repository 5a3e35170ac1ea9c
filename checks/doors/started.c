/*
 * Stands in for a program that a launcher starts, for checks/doors/launchers.py: it prints how it was started, and ends
 * with the status or by the signal that its first two arguments ask for.
 */
#include <fcntl.h>
#include <signal.h>
#include <stdio.h>
#include <stdlib.h>
#include <string.h>
#include <unistd.h>

extern char **environ;

static void print_bytes(FILE *out, const char *name, const char *text) {
    fprintf(out, "%s ", name);
    for (; *text; text++) {
        fprintf(out, "%02x", (unsigned)(unsigned char)*text);
    }
    fprintf(out, "\n");
}

int main(int argc, char **argv) {
    sigset_t blocked;
    struct sigaction how;
    /* Which files are open is seen before one is opened here. */
    char open_files[64];
    for (int i = 0; i < 64; i++) {
        open_files[i] = fcntl(i, F_GETFD) != -1;
    }
    const char *told = getenv("STARTED_TELLS");
    FILE *out = told ? fopen(told, "w") : stdout;
    if (!out) {
        return 99;
    }
    fprintf(out, "process %ld\n", (long)getpid());
    for (int i = 0; i < argc; i++) {
        print_bytes(out, "word", argv[i]);
    }
    for (char **it = environ; *it; it++) {
        print_bytes(out, "variable", *it);
    }
    for (int i = 0; i < 64; i++) {
        if (open_files[i]) {
            fprintf(out, "open %d\n", i);
        }
    }
    sigprocmask(SIG_BLOCK, NULL, &blocked);
    for (int i = 1; i < 32; i++) {
        sigaction(i, NULL, &how);
        if (how.sa_handler == SIG_IGN) {
            fprintf(out, "ignored %d\n", i);
        }
        if (sigismember(&blocked, i)) {
            fprintf(out, "blocked %d\n", i);
        }
    }
    fclose(out);
    if (argc > 2 && strcmp(argv[1], "signal") == 0) {
        raise(atoi(argv[2]));
    }
    if (argc > 1 && strcmp(argv[1], "wait") == 0) {
        pause();
    }
    return argc > 2 && strcmp(argv[1], "status") == 0 ? atoi(argv[2]) : 0;
}
