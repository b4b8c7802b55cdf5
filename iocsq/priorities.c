/* Schedules by priorities (probabilistic concurrency testing, PCT): each thread draws a priority,
 * the highest that can go on runs, and at DEPTH - 1 steps, drawn among all of a run, the thread
 * that runs falls below all others. With N threads and K steps a run shows a fault that DEPTH
 * orders of steps are enough for with a probability of at least 1 / (N * K^(DEPTH - 1)). */
#include "internal.h"

enum { FIRST = 1 << 20, FALLEN = 1 << 16 }; /* those of new threads are above the first, of fallen
                                             * ones above the other */

static uint32_t depth; /* 0: no priorities */
static uint32_t changes[IOCSQ_DEPTH]; /* the steps at which the thread falls that runs */
static uint32_t step, state, lowest;

static uint32_t random_number(void) {
    state ^= state << 13;
    state ^= state >> 17;
    state ^= state << 5;
    return state;
}

uint32_t iocsq_draw_by_priorities(uint32_t below) {
    return random_number() % below;
}

void iocsq_begin_priorities(const struct iocsq_priorities *by) {
    depth = by->depth;
    step = 0;
    lowest = FALLEN;
    state = by->seed * 2654435761u | 1u;
    for (uint32_t at = 0; at < 8; at++) {
        random_number(); /* seeds that are near each other have states that are */
    }
    for (uint32_t at = 0; at + 1 < depth; at++) {
        changes[at] = 1 + iocsq_draw_by_priorities(by->steps);
    }
}

bool iocsq_has_priorities(void) {
    return depth > 0;
}

uint32_t iocsq_steps(void) {
    return step;
}

uint32_t iocsq_new_priority(void) {
    return FIRST + iocsq_draw_by_priorities(UINT32_MAX - FIRST);
}

uint32_t iocsq_lowest_priority(void) {
    return --lowest;
}

uint32_t iocsq_priority_after_step(uint32_t priority) {
    step++;
    for (uint32_t at = 0; at + 1 < depth; at++) {
        if (changes[at] == step) {
            return FALLEN + depth - at;
        }
    }
    return priority;
}
