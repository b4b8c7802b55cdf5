/* Turns: with a seed one thread runs at a time, and at each point the next one is drawn from the
 * seed. So a run is the same whenever its seed is, a wait takes no time, and threads that all wait
 * for each other are reported. In the bounded mode the next one is a choice of explore.c in the
 * place of a draw. The threads are contexts of one thread of the system (contexts.h). */
#define _GNU_SOURCE
#include "contexts.h"
#include "internal.h"

#include <stdlib.h>

enum { TASKS = 256, SHORT_REST = 400, LONG_REST = 4000 };
enum { EARLY_IN = 16 }; /* by priorities: so often the clock comes early */
enum { GOES_ROUND = 2000 }; /* points without a switch: the thread waits for another, though it
                             * doesn't say so */

/* A thread, as it takes turns. */
struct task {
    void *(*start)(void *);
    void *context;
    bool (*may_go)(void *); /* null: it may */
    void *of;
    const char *waits_for;
    uint64_t until;  /* when it goes on in any case */
    uint64_t rests;  /* until this many turns were given: now and then a thread is passed over for
                      * long */
    uint32_t number; /* as iocsq_thread returns it */
    bool is_time;    /* `until` is a time, and no limit */
    bool done;
    bool joined; /* its place is free, with which another begins once there is no other */
    uint32_t priority; /* 0: it has none yet */
    struct iocsq_own own;
};
static struct task *tasks; /* TASKS of them; each has the context of its number */
static uint32_t task_count;
static struct task *self; /* which runs; null: threads run freely */
static uint32_t draw_state; /* 0: threads run freely */
static uint64_t given;      /* turns */
static ULONG most_switches; /* 0: no limit */
static uint32_t points;     /* since the last switch, in the bounded mode */
_Thread_local struct iocsq_own iocsq_own;

static uint32_t draw(uint32_t below) {
    draw_state ^= draw_state << 13;
    draw_state ^= draw_state >> 17;
    draw_state ^= draw_state << 5;
    return draw_state % below;
}

/* The main thread goes on as at first, since a run was left. */
void iocsq_leave_turns(void) {
    self = tasks;
    self->may_go = NULL;
    self->until = IOCSQ_FOR_EVER;
    self->is_time = self->done = false;
    self->rests = 0;
}

bool iocsq_in_turns(void) {
    return draw_state != 0;
}

uint32_t iocsq_task_count(void) {
    return task_count;
}

void iocsq_forget_priorities(void) {
    for (uint32_t at = 0; at < task_count; at++) {
        tasks[at].priority = 0;
    }
}

static struct task *find_joined(void) {
    for (uint32_t at = 0; at < task_count; at++) {
        if (tasks[at].joined) {
            return &tasks[at];
        }
    }
    iocsq_fail("more than %u threads at a time", (unsigned)TASKS);
}

static struct task *new_task(void) {
    struct task *t = task_count < TASKS ? &tasks[task_count++] : find_joined();
    memset(t, 0, sizeof *t);
    t->until = IOCSQ_FOR_EVER;
    return t;
}

VOID IocsqTurns(ULONG Seed) {
    if (Seed == 0 || draw_state) {
        return;
    }
    tasks = calloc(TASKS, sizeof *tasks);
    if (!tasks) {
        iocsq_fail("no memory for threads");
    }
    iocsq_begin_contexts(TASKS);
    IocsqChaos(Seed);
    draw_state = Seed * 2654435761u | 1u;
    self = new_task();
    self->number = iocsq_thread();
    if (!iocsq_is_bounded()) {
        iocsq_begin_races();
    }
}

VOID IocsqBounded(VOID) {
    if (iocsq_is_thread_sanitized()) {
        iocsq_fail("the bounded mode isn't for the thread sanitizer, which has its own variables");
    }
    iocsq_begin_choices();
    IocsqTurns(1);
}

VOID IocsqSwitches(ULONG Most) {
    most_switches = Most;
}

static bool is_ready(const struct task *t) {
    return !t->done && (!t->may_go || t->may_go(t->of) || t->until <= iocsq_now_in_turns());
}

/* ---- Who is next ---- */
static void report_deadlock(void) {
    for (uint32_t at = 0; at < task_count; at++) {
        if (!tasks[at].done) {
            iocsq_log(NULL, "t%u waits for ever, for %s", tasks[at].number, tasks[at].waits_for);
        }
    }
    iocsq_disagree(NULL, "every thread waits for another");
}

/* Fills in the tasks that may go and don't rest, and returns how many. Where all that may go rest,
 * none rests on. */
static uint32_t find_able(struct task **able) {
    uint32_t count = 0, resting = 0;
    for (uint32_t at = 0; at < task_count; at++) {
        if (!is_ready(&tasks[at])) {
            continue;
        }
        if (tasks[at].rests > given) {
            resting++;
        } else {
            able[count++] = &tasks[at];
        }
    }
    if (count == 0 && resting > 0) {
        given += LONG_REST;
        return find_able(able);
    }
    return count;
}

static uint64_t soonest_end_of_wait(void) {
    uint64_t soonest = IOCSQ_FOR_EVER;
    for (uint32_t at = 0; at < task_count; at++) {
        if (!tasks[at].done && tasks[at].until < soonest) {
            soonest = tasks[at].until;
        }
    }
    return soonest;
}

/* Nobody may go: the clock goes on to the first whose wait ends. */
static void pass_time(void) {
    uint64_t soonest = soonest_end_of_wait();
    if (soonest == IOCSQ_FOR_EVER) {
        report_deadlock();
    }
    iocsq_set_clock(soonest);
}

static struct task *draw_next(void) {
    struct task *able[TASKS];
    uint32_t count;
    if (draw(64) == 0) {
        self->rests = given + draw(draw(4) == 0 ? LONG_REST : SHORT_REST);
    }
    while ((count = find_able(able)) == 0) {
        pass_time();
    }
    return able[draw(count)];
}

/* ---- The bounded mode: who is next is a choice ---- */
/* Two threads of the system that wait for the same work: it makes no difference which of them goes
 * on. */
static bool is_twin(const struct task *t, const struct task *other) {
    return t->may_go && t->may_go == other->may_go && !t->of && !other->of &&
           t->start == other->start && t->context == other->context;
}

static bool has_twin(struct task **options, uint32_t count, const struct task *t) {
    for (uint32_t at = 0; at < count; at++) {
        if (is_twin(options[at], t)) {
            return true;
        }
    }
    return false;
}

/* The others that may go, in their order from this thread on. */
static uint32_t find_others(struct task **options, uint32_t count) {
    uint32_t from = (uint32_t)(self - tasks);
    for (uint32_t step = 1; step < task_count; step++) {
        struct task *t = &tasks[(from + step) % task_count];
        if (is_ready(t) && !has_twin(options, count, t)) {
            options[count++] = t;
        }
    }
    return count;
}

/* One whose wait ends by the clock, before any other: the clock may come just now. Null: there is
 * none. */
static struct task *find_early(void) {
    uint64_t soonest = soonest_end_of_wait();
    for (uint32_t at = 0; at < task_count; at++) {
        struct task *t = &tasks[at];
        if (t->is_time && t->until == soonest && soonest != IOCSQ_FOR_EVER && !t->done &&
            !is_ready(t)) {
            return t;
        }
    }
    return NULL;
}

static uint32_t priority_of(struct task *t) {
    if (t->priority == 0) {
        t->priority = iocsq_new_priority();
    }
    return t->priority;
}

/* The option with the highest priority; now and then one whose wait ends by the clock. Where this
 * thread only goes round it falls below all others. */
static struct task *highest_of(struct task **options, uint32_t count, struct task *early,
                               bool goes_round) {
    struct task *next = options[0];
    self->priority =
        goes_round ? iocsq_lowest_priority() : iocsq_priority_after_step(priority_of(self));
    for (uint32_t at = 1; at < count; at++) {
        next = priority_of(options[at]) > priority_of(next) ? options[at] : next;
    }
    return early && iocsq_draw_by_priorities(EARLY_IN) == 0 ? early : next;
}

/* Who may go on follows from the state, but for a thread that has yet to find that it waits: then
 * those that it leads to are options too, at the same price. */
static uint32_t choose_option(struct task **options, uint32_t count, uint32_t free, bool waits) {
    uint32_t threads[TASKS + 2];
    struct iocsq_options of = { count, free, self->number * 2 + waits, threads };
    for (uint32_t at = 0; at < count; at++) {
        threads[at] = is_ready(options[at]) ? options[at]->number : 0; /* otherwise the clock comes
                                                                        * early */
    }
    return iocsq_choose(&of);
}

/* Option 0 is to go on, where the thread can; another is a preemption then. Where it waits, or goes
 * round, the switch is free, but for the clock that comes early. Null: nobody can go on. */
static struct task *choose_next(bool waits) {
    struct task *options[TASKS + 2];
    uint32_t count = 0;
    if (!waits) {
        options[count++] = self;
    }
    count = find_others(options, count);
    if (waits && is_ready(self)) {
        options[count++] = self;
    }
    if (count == 0) {
        return NULL;
    }
    uint32_t free = waits ? count : 1;
    struct task *early = find_early();
    if (early) {
        options[count++] = early;
    }
    uint32_t others = early ? count - 1 : count;
    struct task *next = iocsq_is_by_priorities()
                            ? highest_of(options, others, early, waits && is_ready(self))
                            : options[choose_option(options, count, free, waits)];
    if (next == early) {
        iocsq_set_clock(early->until);
    }
    if (!waits && next != self) {
        iocsq_log(NULL, "-- t%u is preempted by t%u%s", self->number, next->number,
                  next == early ? ": the clock" : "");
    }
    return next;
}

static struct task *choose_after_wait(void) {
    struct task *next;
    while ((next = choose_next(true)) == NULL) {
        pass_time();
    }
    return next;
}

static void go_on_with(struct task *next) {
    struct task *before = self;
    before->own = iocsq_own;
    self = next;
    iocsq_own = next->own;
    if (iocsq_is_bounded()) {
        iocsq_begin_transition();
    }
    iocsq_switch_context((size_t)(before - tasks), (size_t)(next - tasks), before->done);
}

static void give_turn(struct task *next) {
    points = 0;
    if (next != self) {
        iocsq_counts.Switches++;
        go_on_with(next);
    }
}

static void take_turns(void) {
    given++;
    iocsq_pass_time_of_turn();
    give_turn(iocsq_is_bounded() ? choose_after_wait() : draw_next());
}

static void bounded_point(void) {
    if (++points > GOES_ROUND) {
        iocsq_trace_choice(GOES_ROUND); /* otherwise it would be in a state in which it was */
        take_turns();
        return;
    }
    struct task *next = choose_next(false);
    if (next != self) {
        iocsq_pass_time_of_turn();
        give_turn(next);
    }
}

void iocsq_turn_point(void) {
    iocsq_report_race();
    if (iocsq_is_bounded()) {
        bounded_point();
        return;
    }
    bool limited = most_switches && iocsq_counts.Switches >= most_switches;
    if (draw(3) == 0 && !limited) {
        take_turns();
    }
}

void iocsq_long_turn_point(uint32_t in) {
    iocsq_report_race();
    if (!iocsq_is_bounded() && draw(in) == 0) {
        self->rests = given + draw(LONG_REST);
        take_turns();
    } else {
        iocsq_turn_point();
    }
}

void iocsq_yield(void) {
    iocsq_report_race();
    if (iocsq_in_turns()) {
        take_turns();
    } else {
        iocsq_let_others_run();
    }
}

void iocsq_wait_in_turns(bool (*may_go)(void *), void *of, uint64_t nanoseconds, bool is_time,
                         const char *what) {
    if (may_go(of)) {
        return;
    }
    iocsq_report_race();
    if (is_time && nanoseconds != IOCSQ_FOR_EVER) {
        iocsq_pass_time_of_call();
    }
    if (nanoseconds != IOCSQ_FOR_EVER) {
        iocsq_look_at_clock();
    }
    self->may_go = may_go;
    self->of = of;
    self->waits_for = what;
    self->is_time = is_time;
    self->until =
        nanoseconds == IOCSQ_FOR_EVER ? IOCSQ_FOR_EVER : iocsq_now_in_turns() + nanoseconds;
    take_turns();
    self->may_go = NULL;
    self->until = IOCSQ_FOR_EVER;
    self->is_time = false;
    if (nanoseconds != IOCSQ_FOR_EVER) {
        iocsq_look_at_clock();
    }
}

/* ---- Threads of the test and of the driver ---- */
void iocsq_end_turns_of_thread(void) {
    if (!self) {
        return;
    }
    iocsq_report_race();
    iocsq_touch(self, IOCSQ_CHANGES | IOCSQ_RELEASES);
    self->done = true;
    take_turns();
}

static void run_task(void) {
    self->number = iocsq_thread();
    self->start(self->context);
    iocsq_end_turns_of_thread();
}

IOCSQ_THREAD IocsqThread(void *(*Start)(void *), void *Context) {
    if (!iocsq_in_turns()) {
        return iocsq_begin_thread(Start, Context);
    }
    iocsq_touch(&task_count, IOCSQ_CHANGES);
    struct task *t = new_task();
    t->start = Start;
    t->context = Context;
    if (iocsq_is_bounded()) { /* else it has its number as it first runs */
        t->number = t->own.thread = iocsq_number_thread();
    }
    t->own.part = iocsq_part_of_thread(iocsq_is_bounded() ? t->number : task_count);
    iocsq_make_context((size_t)(t - tasks), run_task);
    return t;
}

bool iocsq_has_ended(void *thread) {
    return ((struct task *)thread)->done;
}

VOID IocsqJoin(IOCSQ_THREAD Thread) {
    if (!iocsq_in_turns()) {
        iocsq_join_thread(Thread);
        return;
    }
    struct task *t = Thread;
    if (!t->done) {
        iocsq_wait_in_turns(iocsq_has_ended, t, IOCSQ_FOR_EVER, false, "a thread's end");
    }
    iocsq_touch(t, IOCSQ_ACQUIRES);
    t->joined = true;
}
