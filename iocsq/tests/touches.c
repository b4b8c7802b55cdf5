/* Whether the touches of iocsq's own state are whole (traces.h): in each run of the bounded mode
 * each two conflicting accesses of two threads, in two transitions, are ordered by what the two
 * touched. Otherwise the search could take two different runs for one.
 *
 * iocsq's files and the test are compiled with -fsanitize=thread, with the calls renamed from
 * __tsan_ to own_, so that they come here and the driver's still come to accesses.c. It is linked
 * with --wrap of the calls below, by which the threads take turns and touch. A transition is what a
 * thread does between two choices of who is next: all of its touches count for all that it does. */
#define _GNU_SOURCE
#include "internal.h"
#include "keys.h"
#include "system.h"

#include <stdlib.h>
#include <sys/mman.h>

#define TSAN(name) own_##name
#include "stubs.h"

enum { THREADS = 32, TOUCHES = 1 << 10, RECORDS = 1 << 20, WORD = 8 };
enum kind { READ, WRITTEN, ADDED_TO, KINDS };

/* The last transition of each thread that came before. */
struct clock {
    uint32_t of[THREADS];
};
/* What is touched, as in traces.c. */
struct object {
    struct clock changed, looked;
};
/* A thread's last access of a kind to some bytes of a word. */
struct record {
    struct record *next;
    const void *place;
    uint32_t thread, transition;
    enum kind kind;
    uint8_t bytes; /* a bit for each */
};
struct cell {
    struct record *records;
    struct cell *next; /* accessed in the present transition, in these bytes: */
    uint8_t bytes[KINDS];
    const void *places[KINDS];
};
/* Outside of the variables that each run begins with anew. */
static struct watch {
    uint32_t record_count, touch_count;
    bool is_watching; /* otherwise a thread chooses who is next, for which it looks at all */
    uint32_t transitions[THREADS];
    struct clock clocks[THREADS];
    struct {
        struct object *object;
        bool changes;
    } touches[TOUCHES]; /* of the present transition */
    struct cell *accessed;
    struct iocsq_keys object_keys, words;
    struct object objects[IOCSQ_KEYS];
    struct cell cells[IOCSQ_KEYS];
    struct record records[RECORDS];
} *watch;

static _Noreturn void give_up(const char *why) {
    fprintf(stderr, "touches: %s\n", why);
    _Exit(2);
}

__attribute__((constructor(101))) static void begin_watch(void) {
    watch = mmap(NULL, sizeof *watch, PROT_READ | PROT_WRITE,
                 MAP_PRIVATE | MAP_ANONYMOUS | MAP_NORESERVE, -1, 0);
    if (watch == MAP_FAILED) {
        give_up("no memory");
    }
}

/* The number of an address in a run. Whether it is new is whether there are more than before. */
static uint32_t number_of(struct iocsq_keys *keys, const void *at, const char *too_many) {
    uint64_t key = (uintptr_t)at;
    uint32_t number = iocsq_number_of_key(keys, key, iocsq_mix(key, 1), true);
    if (number == IOCSQ_TOO_MANY) {
        give_up(too_many);
    }
    return number;
}

static struct object *object_at(const void *at) {
    uint32_t before = watch->object_keys.count;
    struct object *o =
        &watch->objects[number_of(&watch->object_keys, at, "a run that touches too many objects")];
    if (watch->object_keys.count > before) {
        *o = (struct object){ 0 };
    }
    return o;
}

static struct cell *cell_of(const void *word) {
    uint32_t before = watch->words.count;
    struct cell *c =
        &watch->cells[number_of(&watch->words, word, "a run that accesses too much memory")];
    if (watch->words.count > before) {
        *c = (struct cell){ 0 };
    }
    return c;
}

/* ---- Accesses of the present transition ---- */
static bool is_thread_own(const void *at) {
    return (uintptr_t)at - (uintptr_t)&iocsq_own < sizeof iocsq_own || iocsq_is_own_stack(at);
}

static void note_word(const void *word, uint8_t bytes, enum kind kind, const void *place) {
    struct cell *c = cell_of(word);
    if (!(c->bytes[READ] | c->bytes[WRITTEN] | c->bytes[ADDED_TO])) {
        c->next = watch->accessed;
        watch->accessed = c;
    }
    if (bytes & ~c->bytes[kind]) {
        c->places[kind] = place;
        c->bytes[kind] |= bytes;
    }
}

/* The section of the functions with IOCSQ_ADDS. */
extern const char __start_iocsq_adds[] __attribute__((weak));
extern const char __stop_iocsq_adds[] __attribute__((weak));

static bool adds(const void *place) {
    uintptr_t size = (uintptr_t)__stop_iocsq_adds - (uintptr_t)__start_iocsq_adds;
    return (uintptr_t)place - (uintptr_t)__start_iocsq_adds < size;
}

static void note(const volatile void *of, size_t size, enum kind of_access, const void *place) {
    enum kind kind = adds(place) ? ADDED_TO : of_access;
    uintptr_t from = (uintptr_t)of, end = from + size;
    if (!watch->is_watching || is_thread_own((const void *)from)) {
        return;
    }
    for (uintptr_t word = from / WORD * WORD; word < end; word += WORD) {
        unsigned first = from > word ? (unsigned)(from - word) : 0;
        unsigned last = end - word < WORD ? (unsigned)(end - word) : (unsigned)WORD;
        note_word((const void *)word, (uint8_t)((1u << last) - (1u << first)), kind, place);
    }
}

static void read_memory(const volatile void *of, size_t size, unsigned how, const void *place) {
    access_memory(of, size, how, place);
}

static void access_memory(const volatile void *of, size_t size, unsigned how, const void *place) {
    note(of, size, how & IOCSQ_WRITES ? WRITTEN : READ, place);
}

static void load_atomic(const volatile void *of, size_t size, int order, const void *place) {
    access_atomic(of, size, LOADED, order, place);
}

static void access_atomic(const volatile void *of, size_t size, enum atomic did, int order,
                          const void *place) {
    (void)order;
    note(of, size, did == LOADED ? READ : did == ADDED ? ADDED_TO : WRITTEN, place);
}

void own_init(void) {
}
void own_atomic_thread_fence(int order) {
    (void)order;
}
void own_atomic_signal_fence(int order) {
    (void)order;
}

/* ---- Touches of the present transition ---- */
static void note_touch(const void *at, bool changes) {
    if (watch->touch_count == TOUCHES) {
        give_up("a transition with too many touches");
    }
    watch->touches[watch->touch_count].object = object_at(at);
    watch->touches[watch->touch_count++].changes = changes;
}

/* What starts a thread touches this, and so does each transition of the thread. */
static const void *start_of(uint32_t thread) {
    return (const char *)watch + thread;
}

/* ---- The end of a transition ---- */
static void join(struct clock *to, const struct clock *from) {
    for (uint32_t at = 0; at < THREADS; at++) {
        to->of[at] = from->of[at] > to->of[at] ? from->of[at] : to->of[at];
    }
}

/* All objects first, since what the thread did before a touch comes before others as well. */
static void end_touches(struct clock *clock) {
    for (uint32_t at = 0; at < watch->touch_count; at++) {
        const struct object *o = watch->touches[at].object;
        join(clock, &o->changed);
        if (watch->touches[at].changes) {
            join(clock, &o->looked);
        }
    }
    for (uint32_t at = 0; at < watch->touch_count; at++) {
        struct object *o = watch->touches[at].object;
        join(watch->touches[at].changes ? &o->changed : &o->looked, clock);
    }
    watch->touch_count = 0;
}

/* Those of one kind commute, unless they write. */
static bool conflicts(enum kind a, enum kind b) {
    return a != b || a == WRITTEN;
}

/* As addr2line finds it in the program: that of the call before it returns. */
static void show_place(const void *place) {
    fprintf(stderr, "touches: at 0x%lx\n", (unsigned long)((const char *)place -
                                                           IOCSQ_PROGRAM - 1));
}

static _Noreturn void report(const struct cell *c, const struct record *r, enum kind kind,
                             uint32_t thread) {
    static const char *const names[KINDS] = { "reads", "writes", "adds to" };
    fprintf(stderr, "touches: t%u %s what t%u %s, and no touch orders the two\n", thread,
            names[kind], r->thread, names[r->kind]);
    iocsq_show_last_calls();
    show_place(c->places[kind]);
    show_place(r->place);
    _Exit(1);
}

static void keep(struct cell *c, enum kind kind, uint32_t thread) {
    struct record *r = c->records;
    while (r && (r->thread != thread || r->kind != kind || r->bytes != c->bytes[kind])) {
        r = r->next;
    }
    if (!r) {
        if (watch->record_count == RECORDS) {
            give_up("a run with too many accesses");
        }
        r = &watch->records[watch->record_count++];
        *r = (struct record){ .next = c->records, .thread = thread, .kind = kind,
                              .bytes = c->bytes[kind] };
        c->records = r;
    }
    r->transition = watch->transitions[thread];
    r->place = c->places[kind];
}

static void check_kind(struct cell *c, enum kind kind, uint32_t thread) {
    for (const struct record *r = c->records; r; r = r->next) {
        if (r->bytes & c->bytes[kind] && conflicts(r->kind, kind) && r->thread != thread &&
            r->transition > watch->clocks[thread].of[r->thread]) {
            report(c, r, kind, thread);
        }
    }
    keep(c, kind, thread);
    c->bytes[kind] = 0;
}

static void end_accesses(uint32_t thread) {
    for (struct cell *c = watch->accessed; c; c = c->next) {
        for (enum kind kind = READ; kind < KINDS; kind++) {
            if (c->bytes[kind]) {
                check_kind(c, kind, thread);
            }
        }
    }
    watch->accessed = NULL;
}

static void end_transition(void) {
    uint32_t thread = iocsq_thread();
    if (thread >= THREADS) {
        give_up("a run with too many threads");
    }
    note_touch(start_of(thread), false);
    watch->clocks[thread].of[thread] = ++watch->transitions[thread];
    end_touches(&watch->clocks[thread]);
    end_accesses(thread);
}

static void begin_transition(void) {
    watch->is_watching = true;
}

/* ---- The calls by which threads touch ---- */
#define WRAPPED(type, name, parameters) \
    type __real_##name parameters;      \
    type __wrap_##name parameters

WRAPPED(void, iocsq_touch, (const void *object, unsigned how)) {
    note_touch(object, how & IOCSQ_CHANGES);
    __real_iocsq_touch(object, how);
}

WRAPPED(VOID, IocsqShared, (const VOID *object, BOOLEAN changes)) {
    note_touch(object, changes);
    __real_IocsqShared(object, changes);
}

WRAPPED(void, iocsq_end_part, (const void *done, uint32_t before)) {
    note_touch(done, true);
    __real_iocsq_end_part(done, before);
}

static const uint64_t the_clock; /* in place of what it shows */

WRAPPED(void, iocsq_look_at_clock, (void)) {
    note_touch(&the_clock, false);
    __real_iocsq_look_at_clock();
}

WRAPPED(uint64_t, iocsq_now, (void)) {
    note(&the_clock, sizeof the_clock, READ, PLACE);
    return __real_iocsq_now();
}

/* The time goes on by no thread, which has the number 0. */
WRAPPED(void, iocsq_touch_clock, (void)) {
    struct object *o = object_at(&the_clock);
    join(&watch->clocks[0], &o->changed);
    join(&watch->clocks[0], &o->looked);
    watch->clocks[0].of[0] = ++watch->transitions[0];
    join(&o->changed, &watch->clocks[0]);
    struct cell *c = cell_of(&the_clock);
    c->bytes[WRITTEN] = UINT8_MAX;
    c->places[WRITTEN] = PLACE;
    check_kind(c, WRITTEN, 0);
    __real_iocsq_touch_clock();
}

WRAPPED(uint32_t, iocsq_part_of_thread, (uint32_t thread)) {
    note_touch(start_of(thread), true);
    return __real_iocsq_part_of_thread(thread);
}

/* ---- The calls by which they take turns ---- */
WRAPPED(void, iocsq_begin_trace, (void)) {
    if (watch->is_watching) { /* the run before has come to its end, in which nobody chose */
        end_transition();
    }
    iocsq_forget_keys(&watch->object_keys);
    iocsq_forget_keys(&watch->words);
    watch->record_count = watch->touch_count = 0;
    watch->accessed = NULL;
    memset(watch->transitions, 0, sizeof watch->transitions);
    memset(watch->clocks, 0, sizeof watch->clocks);
    begin_transition();
    __real_iocsq_begin_trace();
}

/* The first that a thread does as others may go on. */
WRAPPED(void, iocsq_report_race, (void)) {
    watch->is_watching = false;
    __real_iocsq_report_race();
}

WRAPPED(uint32_t, iocsq_choose, (const struct iocsq_options *of)) {
    end_transition();
    uint32_t option = __real_iocsq_choose(of);
    begin_transition();
    return option;
}

/* Whether it has to wait is no access of its own: what it finds then, it reads again. */
WRAPPED(void, iocsq_wait_in_turns, (bool (*may_go)(void *), void *of, uint64_t nanoseconds,
                                    bool is_time, const char *what)) {
    watch->is_watching = false;
    __real_iocsq_wait_in_turns(may_go, of, nanoseconds, is_time, what);
    begin_transition();
}

/* Of the thread that goes on. */
WRAPPED(void, iocsq_begin_transition, (void)) {
    begin_transition();
    __real_iocsq_begin_transition();
}
