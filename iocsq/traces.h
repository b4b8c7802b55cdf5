/* What a run did, as an order: which thread touched which object after which. It has two uses. In
 * the bounded mode a run that has come to a state in which another was before is ended, since what
 * follows is the same (states.c). And two accesses of the driver to one place are a data race,
 * unless the WDK's calls order them (races.c).
 *
 * Both need the driver's accesses, which come from the compiler (accesses.c): without them no
 * traces are kept, and all calls here do nothing. */
#ifndef IOCSQ_TRACES_H
#define IOCSQ_TRACES_H
#include <stdbool.h>
#include <stddef.h>
#include <stdint.h>
#include <stdio.h>

/* How an object is touched. Looks commute with each other. What a thread did before a release
 * happens before what one does that acquires later, as the WDK's calls order it. */
enum {
    IOCSQ_LOOKS = 0,
    IOCSQ_CHANGES = 1,
    IOCSQ_ACQUIRES = 2,
    IOCSQ_RELEASES = 4,
    IOCSQ_SYNC = IOCSQ_CHANGES | IOCSQ_ACQUIRES | IOCSQ_RELEASES,
    IOCSQ_WORD = 8 /* the driver may access it too, and no call of the WDK orders that */
};

static inline uint64_t iocsq_mix(uint64_t a, uint64_t b) {
    a ^= b + UINT64_C(0x9E3779B97F4A7C15) + (a << 6) + (a >> 2);
    a ^= a >> 31;
    a *= UINT64_C(0xBF58476D1CE4E5B9);
    a ^= a >> 27;
    a *= UINT64_C(0x94D049BB133111EB);
    return a ^ a >> 31;
}

/* Stands before a function whose accesses need no touch, since nothing follows from their order:
 * the test of the touches (tests/touches.c) defines it, so that it doesn't see them. */
#ifndef IOCSQ_COMMUTES
#define IOCSQ_COMMUTES
#endif
/* Before one whose accesses commute with those of its like, as additions do, and with no other. */
#ifndef IOCSQ_ADDS
#define IOCSQ_ADDS
#endif

/* ---- traces.c ---- */
bool iocsq_keeps_traces(void);
void iocsq_begin_traces(void); /* of all runs to come, outside of the program's variables */
void iocsq_begin_trace(void);  /* of a run */
uint32_t iocsq_run_number(void);
void iocsq_touch(const void *object, unsigned how);
void iocsq_lock_state_for(const void *object, unsigned how); /* and the state's lock (waits.c) */
void iocsq_release(const void *object);                      /* alone, of what was touched before */
bool iocsq_is_word(const void *object);
void iocsq_touch_clock(void); /* by no thread: the time goes on */
void iocsq_look_at_clock(void);
/* The same of two runs that differ in the order of independent touches alone. */
uint64_t iocsq_trace(void);
void iocsq_trace_choice(uint32_t option); /* of what this thread drew */

/* Of what runs in an order of its own: a thread, but also each DPC and each work item, whichever
 * thread calls it. */
uint32_t iocsq_part_of_thread(uint32_t thread); /* which this one starts */
/* One that comes after what was released to this object alone. Returns the part that this thread
 * was before. */
uint32_t iocsq_begin_part(const void *after);
void iocsq_end_part(const void *done, uint32_t before); /* released to `done` */
/* When the present part is, for itself; and whether what that part did then happened before. */
uint32_t iocsq_part_time(void);
bool iocsq_happened(uint32_t part, uint32_t when);

/* What a thread does from one point to the next: if the objects are as they were, it does the
 * same. */
void iocsq_begin_transition(void);
void iocsq_end_transition(uint64_t name);
uint64_t iocsq_predict(uint32_t thread); /* the state that it comes to, if it goes on; 0: unknown */
uint64_t iocsq_state(uint64_t trace, uint64_t name);

/* For tests of the search: all threads' lines of the log, each in its order. */
void iocsq_trace_line(const char *text);
void iocsq_write_trace(FILE *to); /* of the run that has ended, and its lines */

/* ---- races.c ---- */
enum iocsq_access {
    IOCSQ_READS = 0,
    IOCSQ_WRITES = 1,
    IOCSQ_ATOMIC = 2, /* on purpose without a lock: volatile, or an interlocked call */
    IOCSQ_ENDED = 4   /* the memory was freed, or its IRP completed */
};
bool iocsq_checks_races(void);
void iocsq_forget_race(void); /* of the run before */
void iocsq_report_race(void); /* if this thread found one: ends the program with a report */
void iocsq_begin_races(void); /* if the test asks for it (IocsqRaces) */
/* What the driver accesses from this place of its code. */
void iocsq_access(const void *at, size_t size, unsigned how, const void *place);
void iocsq_begin_memory(const void *at, size_t size); /* nobody had it before */
/* By this call, which the driver makes from this place; null: unknown. */
void iocsq_end_memory(const void *at, size_t size, const char *call, const void *place);
/* Places of plain accesses that meet others on purpose: they are points too, in all runs. */
void iocsq_promote(uintptr_t place);
void iocsq_forget_promoted(void);
bool iocsq_all_met(void); /* the driver came to each of them in this run */
bool iocsq_is_point(const void *place);

/* ---- states.c ---- */
enum iocsq_arrival {
    IOCSQ_NEW,     /* at a state in which no run was before, or runs aren't ended (IocsqReduce) */
    IOCSQ_VISITED, /* this run was there itself */
    IOCSQ_LEAVES   /* another run was there: this one ends */
};
bool iocsq_has_states(void);
void iocsq_begin_states(void);
void iocsq_forget_states(void); /* and which traces were seen */
/* A run that is new, and its number; or one that is made once more, up to this choice. */
uint32_t iocsq_begin_run(void);
void iocsq_repeat_run(uint32_t number, uint32_t end);
bool iocsq_repeats_run(void);
enum iocsq_arrival iocsq_arrive(uint64_t state, uint32_t at);
/* A bit for each option that is known to lead to a state in which a run was. */
uint64_t iocsq_visited_options(const uint32_t *threads, uint32_t options);
bool iocsq_is_new_trace(void); /* of the run that has ended */

/* ---- contexts.c ---- */
bool iocsq_is_own_stack(const void *at); /* of the thread that runs */

/* ---- arena.c: memory of one run, since a run that is left halfway frees nothing ---- */
bool iocsq_begin_arena(void); /* whether the program is linked so */
void iocsq_use_arena(bool uses);

#endif
