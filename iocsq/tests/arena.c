/* The memory of one run (arena.c): blocks that lie apart, are zeros where they have to be, and keep
 * their bytes as they grow; and the next run has the same memory. */
#include "internal.h"

#include <stdio.h>
#include <stdlib.h>

enum { BLOCKS = 40, GROWN = 400 };

static bool is_filled(const unsigned char *at, size_t size, int with) {
    for (size_t byte = 0; byte < size; byte++) {
        if (at[byte] != with) {
            return false;
        }
    }
    return true;
}

/* Each has one byte more than the one before. */
static bool lie_apart(unsigned char **blocks) {
    bool apart = true;
    for (int at = 0; at < BLOCKS; at++) {
        blocks[at] = malloc((size_t)at);
        memset(blocks[at], at, (size_t)at);
    }
    for (int at = 0; at < BLOCKS; at++) {
        apart = apart && (uintptr_t)blocks[at] % 16 == 0 && is_filled(blocks[at], (size_t)at, at);
    }
    return apart;
}

static bool grows(unsigned char *block, int of) {
    unsigned char *grown = realloc(block, GROWN);
    bool kept = is_filled(grown, (size_t)of, of);
    memset(grown, of, GROWN);
    free(grown);
    return kept;
}

int main(void) {
    static unsigned char *first[BLOCKS], *again[BLOCKS];
    unsigned char *outside = malloc(1);
    if (!iocsq_begin_arena()) {
        printf("it isn't linked so\n");
        return EXIT_FAILURE;
    }
    iocsq_use_arena(true);
    bool right = lie_apart(first) && grows(first[BLOCKS - 1], BLOCKS - 1);
    free(outside);
    iocsq_use_arena(true);
    right = right && lie_apart(again) && again[0] == first[0];
    iocsq_use_arena(true);
    unsigned char *zeros = calloc(BLOCKS, 1);
    right = right && (void *)zeros == (void *)first[0] && is_filled(zeros, BLOCKS, 0);
    printf("%s\n", right ? "right" : "wrong");
    return right ? EXIT_SUCCESS : EXIT_FAILURE;
}
