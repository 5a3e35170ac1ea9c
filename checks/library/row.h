/* How a row of the library's checks is counted. */
#include <stdio.h>

static int passed, failed;

#define ROW(holds)                                                                                                     \
    do {                                                                                                               \
        if (holds) {                                                                                                   \
            passed++;                                                                                                  \
        } else {                                                                                                       \
            failed++;                                                                                                  \
            printf("FAILED line %d: %s\n", __LINE__, #holds);                                                          \
        }                                                                                                              \
    } while (0)
