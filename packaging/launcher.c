/*
 * An installed precopy or precopy-view: asks the C library for large pages, as dev/start does, and becomes the
 * program proper, which stands in another folder below the prefix.
 *
 * python/precopy_dev/packaging/launcher.py gives PROGRAM, the way there from the folder of this program, and
 * LARGE_PAGES, the parts of GLIBC_TUNABLES to add. A part that the user has set stays, and so does an empty variable.
 * Arguments, open files, signals and the process itself are handed on as they came.
 */
#define _GNU_SOURCE
#include <errno.h>
#include <limits.h>
#include <stdio.h>
#include <stdlib.h>
#include <string.h>
#include <sys/auxv.h>
#include <unistd.h>

static const char variable[] = "GLIBC_TUNABLES";

/* Whether one of some parts, with colons between them, begins with these bytes. */
static int has_part(const char *parts, const char *front, size_t length) {
    for (const char *part = parts; part; part = strchr(part, ':')) {
        part += *part == ':';
        if (strncmp(part, front, length) == 0) {
            return 1;
        }
    }
    return 0;
}

/* Adds the parts of LARGE_PAGES whose names are not among those set. If memory runs out, the variable stays. */
static void add_large_pages(const char *set) {
    char parts[] = LARGE_PAGES, *rest = NULL, *joined = malloc(strlen(set) + sizeof parts + 1);
    if (!joined) {
        return;
    }
    char *end = stpcpy(joined, set);
    for (const char *part = strtok_r(parts, ":", &rest); part; part = strtok_r(NULL, ":", &rest)) {
        if (!has_part(set, part, strcspn(part, "=") + 1)) {
            end = stpcpy(stpcpy(end, end == joined ? "" : ":"), part);
        }
    }
    setenv(variable, joined, 1);
    free(joined);
}

/* Writes the path of the program proper. Where /proc is missing, the path that was called leads to this program. */
static int find_program(char path[PATH_MAX]) {
    ssize_t length = readlink("/proc/self/exe", path, PATH_MAX);
    const char *called = (const char *)getauxval(AT_EXECFN);
    if (length < 0 && called && realpath(called, path)) {
        length = (ssize_t)strlen(path);
    }
    const char *slash = length > 0 ? memrchr(path, '/', (size_t)length) : NULL;
    if (!slash || (size_t)(slash + 1 - path) + sizeof PROGRAM > PATH_MAX) {
        return -1;
    }
    strcpy(path + (slash + 1 - path), PROGRAM);
    return 0;
}

int main(int argc, char **argv) {
    const char *set = getenv(variable), *name = strrchr("/" PROGRAM, '/') + 1;
    char path[PATH_MAX];
    (void)argc;
    if (find_program(path) != 0) {
        dprintf(STDERR_FILENO, "%s: the folder of this program cannot be found\n", name);
        return 127;
    }
    if (!set || *set) {
        add_large_pages(set ? set : "");
    }
    execv(path, argv);
    if (errno == E2BIG) {
        /* With the parts there is more than the system hands on. It took what came, which is where it was. */
        set ? setenv(variable, set, 1) : unsetenv(variable);
        execv(path, argv);
    }
    int fault = errno;
    dprintf(STDERR_FILENO, "%s: %s: %s\n", name, path, strerror(fault));
    return fault == ENOENT ? 127 : 126;
}
