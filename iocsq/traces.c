/* The order of touches in a run (traces.h). Each touch has a hash: of the thread's last touch and
 * of the object's. So no address is in it, and the sum over all threads' last ones is the same for
 * runs that differ in the order of independent touches alone. Two traces with one hash would hide a
 * class of schedules: docs/IOCSQ.md says how seldom. */
#define _GNU_SOURCE
#include "internal.h"
#include "keys.h"


enum { PARTS = 256, THREADS = 256 };
enum { TOUCHES = 24, TRANSITIONS = 1 << 16, WAYS = 4 };

struct clock {
    uint32_t of[PARTS];
};
/* What threads touch: a lock, an event, an IRP. */
struct object {
    const void *at;
    bool is_word;
    uint64_t changed; /* the last change, */
    uint64_t looked;  /* and the looks since then */
    struct clock *clock; /* null: nothing was released to it */
};
/* From one point of a thread to its next. */
struct transition {
    uint64_t from, to, name; /* the thread's last touch before and after it, and the point */
    uint32_t thread, count;
    struct {
        const void *at;
        uint64_t changed, looked;
    } touches[TOUCHES]; /* each object's first */
};
/* Outside of the variables that each run begins with anew. */
struct traces {
    uint32_t run, parts;
    uint64_t last[THREADS], lines[THREADS], sum;
    struct transition present; /* its count is above TOUCHES: it isn't kept */
    uint32_t kept[TRANSITIONS]; /* numbers of transitions, those of a thread's last touch in WAYS
                                 * places; 0: none */
    uint32_t kept_count;
    struct transition transitions[TRANSITIONS + 1]; /* side by side, as they come */
    struct clock clocks[PARTS];
    struct iocsq_keys keys; /* of objects */
    struct object objects[IOCSQ_KEYS];
    uint32_t clock_count; /* of objects, side by side as those are */
    struct clock object_clocks[IOCSQ_KEYS];
};
static struct traces *traces; /* null: none are kept */

bool iocsq_keeps_traces(void) {
    return traces != NULL;
}

void iocsq_begin_traces(void) {
    traces = iocsq_map(sizeof *traces, "no memory for traces");
    iocsq_begin_trace();
}

static void begin_object(struct object *o, const void *at) {
    const struct object none = { .at = at };
    *o = none;
}

void iocsq_begin_trace(void) {
    if (!traces) {
        return;
    }
    traces->run++;
    memset(traces->clocks, 0, traces->parts * sizeof *traces->clocks);
    traces->parts = 1;
    traces->clock_count = 0;
    traces->sum = 0;
    iocsq_forget_keys(&traces->keys);
    begin_object(&traces->objects[IOCSQ_TOO_MANY], &traces->objects);
    memset(traces->last, 0, sizeof traces->last);
    memset(traces->lines, 0, sizeof traces->lines);
    traces->clocks[0].of[0] = 1;
    iocsq_own.part = 0;
}

uint32_t iocsq_run_number(void) {
    return traces->run;
}

/* ---- The order of all touches ---- */
static uint64_t *last_of(uint32_t thread) {
    return &traces->last[thread % THREADS];
}

static void step(uint32_t thread, uint64_t to) {
    uint64_t *last = last_of(thread);
    traces->sum += iocsq_mix(to, thread) - (*last ? iocsq_mix(*last, thread) : 0);
    *last = to;
}

uint64_t iocsq_trace(void) {
    return traces ? traces->sum : 0;
}

void iocsq_trace_choice(uint32_t option) {
    if (traces) {
        uint32_t thread = iocsq_thread();
        step(thread, iocsq_mix(*last_of(thread), option + 1));
        iocsq_begin_transition();
    }
}

/* Where there are too many, several are taken for one, so that their touches depend on each
 * other. */
static struct object *object_at(const void *at, bool makes) {
    uint32_t before = traces->keys.count;
    uint64_t key = (uintptr_t)at;
    uint32_t number = iocsq_number_of_key(&traces->keys, key, iocsq_mix(key, 7), makes);
    struct object *o = &traces->objects[number];
    if (traces->keys.count > before) {
        begin_object(o, at);
    }
    return number == IOCSQ_NO_NUMBER ? NULL : o;
}

/* ---- What happened before ---- */
static struct clock *clock_of_part(void) {
    return &traces->clocks[iocsq_own.part];
}

static void join(struct clock *to, const struct clock *from) {
    for (uint32_t at = 0; at < traces->parts; at++) {
        to->of[at] = from->of[at] > to->of[at] ? from->of[at] : to->of[at];
    }
}

static void release(struct object *o) {
    if (!o->clock) {
        o->clock = &traces->object_clocks[traces->clock_count++];
        memset(o->clock, 0, sizeof *o->clock);
    }
    join(o->clock, clock_of_part());
    clock_of_part()->of[iocsq_own.part]++;
}

uint32_t iocsq_part_time(void) {
    return clock_of_part()->of[iocsq_own.part];
}

bool iocsq_happened(uint32_t part, uint32_t when) {
    return part == iocsq_own.part || when <= clock_of_part()->of[part];
}

/* ---- Touches ---- */
static void note_touch(uint32_t thread, const struct object *o) {
    struct transition *made = &traces->present;
    if (thread != made->thread || made->count >= TOUCHES) {
        made->count = TOUCHES + 1;
        return;
    }
    for (uint32_t at = 0; at < made->count; at++) {
        if (made->touches[at].at == o->at) {
            return;
        }
    }
    made->touches[made->count].at = o->at;
    made->touches[made->count].changed = o->changed;
    made->touches[made->count++].looked = o->looked;
}

static void order_touch(uint32_t thread, struct object *o, unsigned how) {
    uint64_t before = *last_of(thread);
    note_touch(thread, o);
    if (how & IOCSQ_CHANGES) {
        o->changed = iocsq_mix(iocsq_mix(before, o->changed), o->looked);
        o->looked = 0;
        step(thread, o->changed);
    } else {
        uint64_t looked = iocsq_mix(iocsq_mix(before, o->changed), 3);
        o->looked += looked;
        step(thread, looked);
    }
}

/* The order of all touches matters to the search alone, and races only to what happened before. */
static void touch(uint32_t thread, const void *at, unsigned how) {
    bool is_search = iocsq_is_bounded();
    if (!is_search && !(how & (IOCSQ_ACQUIRES | IOCSQ_RELEASES | IOCSQ_WORD))) {
        return;
    }
    struct object *o = object_at(at, true);
    o->is_word = o->is_word || how & IOCSQ_WORD;
    if (is_search) {
        order_touch(thread, o, how);
    }
    if (how & IOCSQ_ACQUIRES && o->clock) {
        join(clock_of_part(), o->clock);
    }
    if (how & IOCSQ_RELEASES) {
        release(o);
    }
}

void iocsq_touch(const void *object, unsigned how) {
    if (traces) {
        touch(iocsq_thread(), object, how);
    }
}

VOID IocsqShared(const VOID *Object, BOOLEAN Changes) {
    iocsq_touch(Object, Changes ? (unsigned)IOCSQ_CHANGES : (unsigned)IOCSQ_LOOKS);
}

void iocsq_release(const void *object) {
    release(object_at(object, true));
}

bool iocsq_is_word(const void *object) {
    const struct object *o = object_at(object, false);
    return o && o->is_word;
}

void iocsq_touch_clock(void) {
    if (traces) {
        touch(0, &traces, IOCSQ_CHANGES);
    }
}

void iocsq_look_at_clock(void) {
    iocsq_touch(&traces, IOCSQ_LOOKS);
}

/* ---- Parts ---- */
static uint32_t new_part(const struct clock *after) {
    if (traces->parts == PARTS) {
        join(clock_of_part(), after); /* too many: it comes after what its thread did before, and a
                                       * race between the two isn't seen */
        return iocsq_own.part;
    }
    uint32_t part = traces->parts++;
    traces->clocks[part] = *after;
    traces->clocks[part].of[part] = 1;
    return part;
}

uint32_t iocsq_part_of_thread(uint32_t thread) {
    if (!traces) {
        return 0;
    }
    step(thread, iocsq_mix(*last_of(iocsq_thread()), 5)); /* what it is comes from its starter */
    traces->present.count = TOUCHES + 1;
    uint32_t part = new_part(clock_of_part());
    clock_of_part()->of[iocsq_own.part]++;
    return part;
}

uint32_t iocsq_begin_part(const void *after) {
    uint32_t before = iocsq_own.part;
    if (traces) {
        static const struct clock none;
        const struct object *o = object_at(after, true);
        iocsq_own.part = new_part(o->clock ? o->clock : &none);
    }
    return before;
}

void iocsq_end_part(const void *done, uint32_t before) {
    iocsq_touch(done, IOCSQ_CHANGES | IOCSQ_RELEASES);
    iocsq_own.part = before;
}

/* ---- Transitions ---- */
/* WAYS numbers. */
static uint32_t *transitions_from(uint32_t thread, uint64_t from) {
    return &traces->kept[iocsq_mix(from, thread) % (TRANSITIONS / WAYS) * WAYS];
}

void iocsq_begin_transition(void) {
    if (traces) {
        traces->present.thread = iocsq_thread();
        traces->present.from = *last_of(iocsq_thread());
        traces->present.count = 0;
    }
}

static bool is_same(const struct transition *a, const struct transition *b) {
    return a->thread == b->thread && a->from == b->from && a->to == b->to && a->name == b->name &&
           a->count == b->count &&
           memcmp(a->touches, b->touches, a->count * sizeof *a->touches) == 0;
}

/* Those that touch nothing, end in a wait or in a choice of a value aren't kept. */
static bool is_kept(const struct transition *made, uint64_t name) {
    return made->count > 0 && made->count <= TOUCHES && made->thread == iocsq_thread() &&
           name % 2 == 0 && name >> 32 == 0;
}

static void keep(uint32_t *number, const struct transition *made) {
    if (*number == 0) {
        *number = ++traces->kept_count;
    }
    memcpy(&traces->transitions[*number], made,
           offsetof(struct transition, touches) + made->count * sizeof *made->touches);
}

void iocsq_end_transition(uint64_t name) {
    struct transition *made = &traces->present;
    if (is_kept(made, name)) {
        uint32_t *kept = transitions_from(made->thread, made->from);
        made->to = *last_of(made->thread);
        made->name = name;
        uint32_t way = 0;
        while (way < WAYS && kept[way] && !is_same(&traces->transitions[kept[way]], made)) {
            way++;
        }
        keep(&kept[way < WAYS ? way : made->to % WAYS], made);
    }
    iocsq_begin_transition();
}

static bool applies(const struct transition *t) {
    for (uint32_t at = 0; at < t->count; at++) {
        const struct object *o = object_at(t->touches[at].at, false);
        if ((o ? o->changed : 0) != t->touches[at].changed ||
            (o ? o->looked : 0) != t->touches[at].looked) {
            return false;
        }
    }
    return true;
}

uint64_t iocsq_predict(uint32_t thread) {
    uint64_t last = *last_of(thread);
    const uint32_t *kept = transitions_from(thread, last);
    for (uint32_t way = 0; way < WAYS && kept[way]; way++) {
        const struct transition *t = &traces->transitions[kept[way]];
        if (t->thread == thread && t->from == last && applies(t)) {
            uint64_t without = traces->sum - (last ? iocsq_mix(last, thread) : 0);
            return iocsq_state(without + iocsq_mix(t->to, thread), t->name);
        }
    }
    return 0;
}

uint64_t iocsq_state(uint64_t trace, uint64_t name) {
    uint64_t state = iocsq_mix(trace, name);
    return state ? state : 1;
}

/* ---- Threads' lines ---- */
void iocsq_trace_line(const char *text) {
    bool is_search = traces && iocsq_is_bounded();
    uint64_t *lines = is_search ? &traces->lines[iocsq_thread() % THREADS] : NULL;
    if (lines && strncmp(text, "--", 2) != 0) { /* which thread goes on isn't its own line */
        for (const char *at = text; *at; at++) {
            *lines = *lines * 31 + (unsigned char)*at;
        }
        *lines = iocsq_mix(*lines, 1);
    }
}

void iocsq_write_trace(FILE *to) {
    uint64_t lines = 0;
    for (uint32_t at = 0; at < THREADS; at++) {
        lines = iocsq_mix(lines, traces->lines[at]);
    }
    fprintf(to, "%016llx %016llx\n", (unsigned long long)traces->sum, (unsigned long long)lines);
}
