/* The states in which runs of the bounded mode were: what they had done until then, as a trace
 * (traces.h), who ran, and whether that thread waited. A run that comes to a state in which another
 * was, with no fewer preemptions, ends there: what follows was tried from the other. So of all runs
 * that differ in the order of independent steps alone, one is enough.
 *
 * The runs come by their preemptions, those with the fewest first: so the first run in a state has
 * had the fewest that lead to it. */
#define _GNU_SOURCE
#include "internal.h"


enum { FIRST_ROOM = 1 << 6, OPTIONS = 64 }; /* so few that each search grows its tables */

struct state {
    uint64_t key;
    uint32_t run; /* the first in it; 0: the place is free */
    uint32_t at;  /* its choice there */
};
struct table {
    size_t room, count;
    struct state *of;
};
/* Outside of the variables that each run begins with anew. */
struct states {
    struct table states, traces;
    uint32_t runs;   /* that were begun */
    uint32_t number; /* of the present one */
    bool repeats;    /* it is made once more, to see its choices, */
    uint32_t end;    /* up to this one */
};
static struct states *states; /* null: they aren't kept */
static bool reduces;          /* a run ends where another was */

VOID IocsqReduce(BOOLEAN Reduces) {
    reduces = Reduces;
}

bool iocsq_has_states(void) {
    return states != NULL;
}

static void *map(size_t size) {
    return iocsq_map(size, "no memory for the states of schedules");
}

/* ---- Tables ---- */
static struct state *find(const struct table *t, uint64_t key) {
    size_t at = key & (t->room - 1);
    while (t->of[at].run && t->of[at].key != key) {
        at = (at + 1) & (t->room - 1);
    }
    return &t->of[at];
}

static void grow(struct table *t) {
    struct table before = *t;
    t->room = before.room ? 2 * before.room : FIRST_ROOM;
    t->of = map(t->room * sizeof *t->of);
    for (size_t at = 0; at < before.room; at++) {
        if (before.of[at].run) {
            *find(t, before.of[at].key) = before.of[at];
        }
    }
    if (before.of) {
        iocsq_unmap(before.of, before.room * sizeof *before.of);
    }
}

static void add(struct table *t, struct state *free, struct state made) {
    *free = made;
    if (++t->count * 2 > t->room) {
        grow(t);
    }
}

static void empty(struct table *t) {
    memset(t->of, 0, t->room * sizeof *t->of);
    t->count = 0;
}

/* ---- Runs ---- */
void iocsq_begin_states(void) {
    states = NULL;
    if (!iocsq_keeps_traces() || !iocsq_begin_arena()) {
        return;
    }
    states = map(sizeof *states);
    grow(&states->states);
    grow(&states->traces);
}

void iocsq_forget_states(void) {
    empty(&states->states);
    empty(&states->traces);
    states->runs = 0;
    states->repeats = false;
}

uint32_t iocsq_begin_run(void) {
    states->repeats = false;
    states->number = ++states->runs;
    return states->number;
}

void iocsq_repeat_run(uint32_t number, uint32_t end) {
    states->repeats = true;
    states->number = number;
    states->end = end;
}

bool iocsq_repeats_run(void) {
    return states->repeats;
}

bool iocsq_is_new_trace(void) {
    struct state made = { iocsq_state(iocsq_trace(), 0), states->number, 0 };
    struct state *found = find(&states->traces, made.key);
    bool is_new = found->run == 0;
    if (is_new) {
        add(&states->traces, found, made);
    }
    return is_new;
}

/* ---- In a run ---- */
static enum iocsq_arrival arrive_again(const struct state *found, uint32_t at) {
    if (at == states->end) {
        return IOCSQ_LEAVES;
    }
    return found->run == states->number && found->at == at ? IOCSQ_NEW : IOCSQ_VISITED;
}

enum iocsq_arrival iocsq_arrive(uint64_t state, uint32_t at) {
    struct state *found = find(&states->states, state);
    if (!reduces) {
        return states->repeats && at == states->end ? IOCSQ_LEAVES : IOCSQ_NEW;
    }
    if (states->repeats) {
        return arrive_again(found, at);
    }
    if (found->run) {
        return found->run == states->number ? IOCSQ_VISITED : IOCSQ_LEAVES;
    }
    struct state made = { state, states->number, at };
    add(&states->states, found, made);
    return IOCSQ_NEW;
}

uint64_t iocsq_visited_options(const uint32_t *threads, uint32_t options) {
    uint64_t visited = 0;
    for (uint32_t at = 1; reduces && at < options && at < OPTIONS; at++) {
        uint64_t state = threads[at] ? iocsq_predict(threads[at]) : 0;
        if (state && find(&states->states, state)->run) {
            visited |= UINT64_C(1) << at;
        }
    }
    return visited;
}
