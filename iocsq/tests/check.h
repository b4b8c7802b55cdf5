/* What the tests share that check the kernel's stand-ins call by call. */
#ifndef CHECK_H
#define CHECK_H
#include "iocsq_test.h"

#include <stdbool.h>
#include <stdlib.h>

static const char *test;
static int failures;

static void check(int holds, const char *what, int line) {
    if (!holds) {
        printf("FAILED %s: line %d: %s\n", test, line, what);
        failures++;
    }
}
#define CHECK(condition) check((condition) != 0, #condition, __LINE__)
#define RUN(name) \
    (test = #name, name(), failures == 0 ? (void)printf("passed %s\n", test) : (void)0)

static inline void begin(int argc, char **argv) {
    IocsqLimit(100);
    if (argc > 1 && strcmp(argv[1], "turns") == 0) {
        IocsqTurns(1);
    }
}

#endif
