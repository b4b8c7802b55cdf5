/* The plans of runs (explore.c): which choices aren't the first option. */
#ifndef PLANS_H
#define PLANS_H
#include "internal.h"

enum { IOCSQ_PLANNED = 50 };
struct iocsq_planned {
    uint32_t at; /* the place in the sequence of choices */
    uint32_t option;
};
struct iocsq_plan {
    uint32_t run, end; /* once it was run: its number, and how many choices it had */
    struct iocsq_priorities priorities; /* in the place of choices, if there are any */
    uint32_t count;
    struct iocsq_planned choices[IOCSQ_PLANNED];
};
/* Plans, of which the last one is the next. */
struct iocsq_pile {
    struct iocsq_plan *plans;
    size_t count, room;
};

void iocsq_push(struct iocsq_pile *pile, const struct iocsq_plan *made);
struct iocsq_plan iocsq_pop(struct iocsq_pile *pile);
/* A plan as a schedule's name: pct:DEPTH:STEPS:SEED, or CHOICE:OPTION,CHOICE:OPTION.. And back:
 * then places that are points (iocsq_promote) may come first, as at:PLACE, */
void iocsq_name_plan(char *name, size_t size, const struct iocsq_plan *made);
void iocsq_read_plan(const char *name, struct iocsq_plan *made);

#endif
