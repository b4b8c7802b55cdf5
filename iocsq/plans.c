/* Piles of plans, and their names. */
#include "plans.h"

#include <stdlib.h>

void iocsq_push(struct iocsq_pile *pile, const struct iocsq_plan *made) {
    if (pile->count == pile->room) {
        pile->room = pile->room ? 2 * pile->room : 1024;
        pile->plans = realloc(pile->plans, pile->room * sizeof *pile->plans);
        if (!pile->plans) {
            iocsq_fail("no memory for %zu schedules", pile->room);
        }
    }
    pile->plans[pile->count++] = *made;
}

struct iocsq_plan iocsq_pop(struct iocsq_pile *pile) {
    return pile->plans[--pile->count];
}

void iocsq_name_plan(char *name, size_t size, const struct iocsq_plan *made) {
    size_t used = 0;
    if (made->priorities.depth > 0) {
        snprintf(name, size, "pct:%u:%u:%u", made->priorities.depth, made->priorities.steps,
                 made->priorities.seed);
    }
    for (uint32_t at = 0; at < made->count && used < size; at++) {
        used += (size_t)snprintf(name + used, size - used, "%s%u:%u", at ? "," : "",
                                 made->choices[at].at, made->choices[at].option);
    }
}

void iocsq_read_plan(const char *name, struct iocsq_plan *made) {
    int used = 0;
    const char *at = name;
    struct iocsq_priorities *p = &made->priorities;
    if (sscanf(at, "pct:%u:%u:%u%n", &p->depth, &p->steps, &p->seed, &used) == 3 &&
        p->depth <= IOCSQ_DEPTH && p->steps > 0) {
        at += used;
    }
    unsigned long long place;
    while (sscanf(at, "at:%llx,%n", &place, &used) == 1) {
        iocsq_promote((uintptr_t)place);
        at += used;
    }
    while (*at && made->count < IOCSQ_PLANNED &&
           sscanf(at, "%u:%u%n", &made->choices[made->count].at, &made->choices[made->count].option,
                  &used) == 2) {
        made->count++;
        at += used;
        at += *at == ',';
    }
    if (*at) {
        iocsq_fail("no schedule: %s (one is CHOICE:OPTION,CHOICE:OPTION.., as a report names it)",
                   name);
    }
}
