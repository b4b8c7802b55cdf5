/* What misuse.c and wdf.c share, which have a table of calls that a driver must not make, each with
 * its report:
 *
 *     PROGRAM           prints how many there are
 *     PROGRAM NUMBER    prints the report that the call of this number leads to, and makes that
 *                       call, which ends the program with the report
 *
 * In turns, so that no other thread comes between. */
#ifndef MISUSE_H
#define MISUSE_H
#include "iocsq_test.h"

#include <stdlib.h>

/* A row of the table. */
#define MISUSE(make, report) { make, report }

/* The number of the row, of this many; without one it prints how many there are, and ends. */
static inline size_t choose(int argc, char **argv, size_t count) {
    if (argc < 2) {
        printf("%zu\n", count);
        exit(0);
    }
    IocsqLimit(100);
    IocsqTurns(1);
    return (size_t)strtoul(argv[1], NULL, 10) % count;
}

/* Before the call, after which nothing is printed but its report. */
static inline void announce(const char *report) {
    printf("%s\n", report);
    fflush(stdout);
}

#endif
