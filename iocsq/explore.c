/* The bounded mode: every schedule of a test with at most a given number of preemptions. A run is a
 * sequence of choices, and is made anew from a plan: the choices that aren't option 0, each with
 * its place in that sequence. It writes down which choices it had, and their other options are the
 * plans of other runs. So no schedule is run twice, and none is left out.
 *
 * With the driver's accesses, runs that would repeat what others did are ended (states.c).
 *
 * A process explores (iocsq_run_apart): it gives the program's variables back their values before
 * each run (variables.c). A report ends it, and what it wrote down is left to the one that began
 * it. */
#include "contexts.h"
#include "internal.h"
#include "plans.h"

#include <stdlib.h>

enum { CHOICES = 1 << 16, MOST_PREEMPTIONS = 8, SECONDS = 20, MEASURED = 20 };
enum { PLACES = 300, NAME = 600 };

struct choice {
    uint16_t options;
    uint16_t free;    /* this many of them, from the first on, are no preemptions */
    bool was_visited; /* the others are tried from another choice in the same state */
    uint64_t visited; /* bits of options that are known to lead to a state in which a run was */
};
/* What a run writes down. */
struct run {
    bool left; /* before its end */
    uint32_t steps, threads; /* once it has ended */
    uint32_t count;
    struct choice choices[CHOICES];
};
/* What the process that explores writes down. */
struct shared {
    struct run run;
    char name[NAME];     /* of the schedule, but for its places: */
    char places[PLACES]; /* the driver's accesses that are points */
    bool begins_again; /* all runs are made anew */
    IOCSQ_EXPLORED explored;
};

static bool bounded;
static struct shared *shared; /* null: nothing is explored or shown again */
static bool makes_choices;    /* else each is option 0, and isn't written down */
static struct iocsq_plan plan;
static uint32_t next_planned;
static void *back[5];         /* where a run goes that is left */
static bool explores;         /* every schedule, and not one or those by priorities */

bool iocsq_is_bounded(void) {
    return bounded;
}

bool iocsq_is_by_priorities(void) {
    return makes_choices && iocsq_has_priorities();
}

void iocsq_begin_choices(void) {
    bounded = true;
}

/* ---- In the run ---- */
VOID IocsqChoices(VOID) {
    makes_choices = shared != NULL;
}

static void leave_run(void) {
    iocsq_report_race();
    shared->run.left = true;
    iocsq_leave_contexts(back);
}

void iocsq_note_place(uintptr_t place) {
    size_t used = explores ? strlen(shared->places) : 0;
    if (explores) {
        snprintf(shared->places + used, PLACES - used, "at:%llx,",
                 (unsigned long long)place);
    }
}

void iocsq_begin_again(void) {
    if (explores) {
        shared->begins_again = true;
        leave_run();
    }
}

/* Whether a run ends where another was: only after what its plan names, where it is new. */
static bool looks_at_states(void) {
    return makes_choices && iocsq_has_states() && next_planned == plan.count;
}

/* Ends the run if another was in this state. Whether this one was, at another choice. */
static bool was_visited(uint64_t state, uint32_t at) {
    enum iocsq_arrival arrival = iocsq_arrive(state, at);
    if (arrival == IOCSQ_LEAVES) {
        leave_run();
    }
    return arrival == IOCSQ_VISITED;
}

static void note_choice(uint32_t at, const struct iocsq_options *of, uint64_t state) {
    struct choice *choice = &shared->run.choices[at];
    choice->options = (uint16_t)of->count;
    choice->free = (uint16_t)of->free;
    choice->was_visited = looks_at_states() && was_visited(state, at);
    choice->visited = looks_at_states() && of->threads && !choice->was_visited
                          ? iocsq_visited_options(of->threads, of->count)
                          : 0;
}

static uint32_t choose(const struct iocsq_options *of, uint64_t state) {
    uint32_t at = shared->run.count, option = 0, options = of->count;
    if (at == CHOICES) {
        iocsq_disagree(NULL, "the run has more than %u choices: a thread goes round without end",
                       (unsigned)CHOICES);
    }
    note_choice(at, of, state);
    shared->run.count++;
    if (next_planned < plan.count && plan.choices[next_planned].at == at) {
        option = plan.choices[next_planned++].option;
    }
    if (option >= options) {
        iocsq_fail("choice %u has %u options, and the schedule wants option %u: it is another "
                   "test's, or the driver does not do the same each time",
                   at, options, option);
    }
    return option;
}

uint32_t iocsq_choose(const struct iocsq_options *of) {
    uint64_t state = 0;
    if (iocsq_has_states()) {
        iocsq_end_transition(of->point);
        state = iocsq_state(iocsq_trace(), of->point);
    }
    if (of->count < 2 && looks_at_states() && !iocsq_repeats_run()) {
        was_visited(state, UINT32_MAX);
    }
    if (!makes_choices || of->count < 2) {
        return 0;
    }
    return iocsq_is_by_priorities() ? iocsq_draw_by_priorities(of->count) : choose(of, state);
}

uint32_t iocsq_choose_value(uint32_t values) {
    struct iocsq_options of = { values, values, (uint64_t)iocsq_thread() << 32 | values, NULL };
    uint32_t value = iocsq_choose(&of);
    iocsq_trace_choice(value);
    return value;
}

static void run_plan(void (*call)(PVOID context), PVOID context, const struct iocsq_plan *made) {
    plan = *made;
    next_planned = 0;
    makes_choices = false;
    shared->run.count = 0;
    iocsq_begin_priorities(&plan.priorities);
    iocsq_forget_priorities();
    IocsqLimit(SECONDS);
    shared->run.left = false;
    shared->places[0] = '\0';
    iocsq_begin_trace();
    iocsq_forget_race();
    iocsq_use_arena(iocsq_has_states());
    if (explores && iocsq_checks_races() && __builtin_setjmp(back)) {
        return;
    }
    call(context);
    shared->run.steps = iocsq_steps();
    shared->run.threads = iocsq_task_count();
    if (next_planned < plan.count) {
        iocsq_fail("the run ends before choice %u, which the schedule names: it is another test's, "
                   "or the driver does not do the same each time",
                   plan.choices[next_planned].at);
    }
    if (!explores && !iocsq_all_met()) {
        iocsq_fail("the schedule names a place to which the run doesn't come: it is another "
                   "test's");
    }
    shared->explored.Inserted += iocsq_counts.Inserted;
}

/* ---- Processes ---- */
struct planned_run {
    void (*call)(PVOID context);
    PVOID context;
    const struct iocsq_plan *made;
};

static void make_run(void *of) {
    const struct planned_run *run = of;
    run_plan(run->call, run->context, run->made);
}

/* Runs a plan as if it were the first: a sanitizer has variables of its own, so with one each run
 * is a process. */
static void run_afresh(const struct iocsq_variables *variables, void (*call)(PVOID context),
                       PVOID context, const struct iocsq_plan *made) {
    struct planned_run run = { call, context, made };
    if (variables) {
        make_run(&run);
        iocsq_forget_run(variables);
        return;
    }
    int status = iocsq_run_apart(make_run, &run);
    if (status != 0) {
        iocsq_exit(status);
    }
}

/* ---- The exploration ---- */
static bool is_to_be_run(const struct choice *choice, uint32_t option) {
    return !choice->was_visited && (option >= 64 || !(choice->visited >> option & 1));
}

/* The plans of a choice's other options: of those that are preemptions, or of the free ones. */
static void push_options(struct iocsq_pile *pile, struct iocsq_plan made, uint32_t at,
                         bool preemptions) {
    const struct choice *choice = &shared->run.choices[at];
    uint32_t end = preemptions ? choice->options : choice->free;
    struct iocsq_planned *last = &made.choices[made.count++];
    last->at = at;
    for (last->option = preemptions ? choice->free : 1; last->option < end; last->option++) {
        if (is_to_be_run(choice, last->option)) {
            iocsq_push(pile, &made);
        }
    }
}

/* The plans that differ from this run's first where its own has nothing more to say. */
static void push_others(struct iocsq_pile *pile, const struct iocsq_plan *made, bool preemptions) {
    uint32_t from = made->count ? made->choices[made->count - 1].at + 1 : 0;
    if (made->count == IOCSQ_PLANNED) {
        iocsq_fail("a schedule has more than %u choices that aren't the first option",
                   (unsigned)IOCSQ_PLANNED);
    }
    for (uint32_t at = shared->run.count; at > from; at--) { /* the last one pushed is run first */
        push_options(pile, *made, at - 1, preemptions);
    }
}

static void begin_exploration(void) {
    if (!bounded) {
        iocsq_fail("IocsqBounded was not called first");
    }
    shared = iocsq_map_shared(sizeof *shared, "no memory for the choices of a run");
}

/* What there is to run. */
struct exploration {
    void (*call)(PVOID context);
    PVOID context;
    ULONG depth, most; /* of runs by priorities; and how many of them, or preemptions */
    const struct iocsq_variables *variables;
    struct iocsq_pile ready;       /* plans that have yet to be run */
    struct iocsq_pile parents;     /* those with one preemption fewer: what they lead to has yet to
                                    * be found */
    struct iocsq_pile new_parents; /* those that were run, of the present preemptions */
};

static void run_next(struct exploration *e, struct iocsq_pile *from, struct iocsq_plan *made) {
    *made = iocsq_pop(from);
    iocsq_name_plan(shared->name, sizeof shared->name, made);
    run_afresh(e->variables, e->call, e->context, made);
}

static FILE *traces_to; /* null: nowhere */

VOID IocsqTraces(FILE *To) {
    traces_to = To;
}

/* A run that was left is no schedule of its own. */
static void count_run(void) {
    if (shared->run.left) {
        shared->explored.Schedules--;
        shared->explored.Left++;
        return;
    }
    shared->explored.Classes += !iocsq_has_states() || iocsq_is_new_trace();
    if (traces_to && iocsq_keeps_traces()) {
        iocsq_write_trace(traces_to);
    }
}

static void run_ready(struct exploration *e, bool leads_on) {
    struct iocsq_plan made;
    uint32_t number = iocsq_has_states() ? iocsq_begin_run() : 0;
    shared->explored.Schedules++;
    run_next(e, &e->ready, &made);
    made.run = number;
    made.end = shared->run.count;
    count_run();
    push_others(&e->ready, &made, false);
    if (leads_on) {
        iocsq_push(&e->new_parents, &made);
    }
}

/* Runs a parent once more, since the plans that it leads to are too many to be kept. */
static void expand_parent(struct exploration *e) {
    struct iocsq_plan made;
    const struct iocsq_plan *next = &e->parents.plans[e->parents.count - 1];
    if (iocsq_has_states()) {
        iocsq_repeat_run(next->run, next->end);
    }
    run_next(e, &e->parents, &made);
    push_others(&e->ready, &made, true);
}

static void begin_next_preemptions(struct exploration *e) {
    struct iocsq_pile emptied = e->parents;
    e->parents = e->new_parents;
    e->new_parents = emptied;
    shared->explored.Preemptions++;
}

static ULONG most_seconds; /* of the next exploration; 0: no limit */

VOID IocsqExploreWithin(ULONG Seconds) {
    most_seconds = Seconds;
}

static uint64_t second(void) {
    return iocsq_clock() / 1000000000;
}

static void begin_first(struct exploration *e) {
    const struct iocsq_plan first = { .count = 0 };
    e->ready.count = e->parents.count = e->new_parents.count = 0;
    shared->explored.Schedules = shared->explored.Left = shared->explored.Classes = 0;
    shared->explored.Preemptions = 0;
    shared->begins_again = false;
    if (iocsq_has_states()) {
        iocsq_forget_states();
    }
    iocsq_push(&e->ready, &first);
}

/* In the process that explores: if this returns, all were run, or the time is over. */
static void explore(void *of) {
    struct exploration *e = of;
    bool limited = most_seconds > 0;
    uint64_t end = second() + most_seconds;
    explores = true;
    iocsq_begin_races();
    iocsq_begin_states();
    shared->explored.Checked = iocsq_checks_races();
    e->variables = iocsq_save_variables();
    begin_first(e);
    while (shared->begins_again || e->ready.count > 0 || e->parents.count > 0 ||
           shared->explored.Preemptions < e->most) {
        if (limited && second() >= end) {
            shared->explored.Unfinished = TRUE;
            break;
        }
        if (shared->begins_again) {
            begin_first(e);
        }
        if (e->ready.count > 0) {
            run_ready(e, shared->explored.Preemptions < e->most);
        } else if (e->parents.count > 0) {
            expand_parent(e);
        } else {
            begin_next_preemptions(e);
        }
    }
    fflush(traces_to);
}

/* What came of it, once the process that explores has ended. */
static IOCSQ_EXPLORED end_exploration(int status) {
    shared->explored.Status = status;
    IOCSQ_EXPLORED explored = shared->explored;
    bool is_first = shared->name[0] == '\0';
    snprintf(explored.Schedule, sizeof explored.Schedule, "%s%s", shared->places,
             is_first ? "0:0" : shared->name);
    iocsq_unmap(shared, sizeof *shared);
    shared = NULL;
    return explored;
}

IOCSQ_EXPLORED IocsqExplore(VOID (*Run)(PVOID Context), PVOID Context, ULONG MostPreemptions) {
    if (MostPreemptions > MOST_PREEMPTIONS) {
        iocsq_fail("more than %u preemptions", (unsigned)MOST_PREEMPTIONS);
    }
    begin_exploration();
    struct exploration e = { .call = Run, .context = Context, .most = MostPreemptions };
    return end_exploration(iocsq_run_apart(explore, &e));
}

/* ---- Runs by priorities ---- */
static void run_by_priorities(struct exploration *e, struct iocsq_priorities priorities) {
    iocsq_forget_promoted();
    struct iocsq_plan made = { .priorities = priorities };
    iocsq_name_plan(shared->name, sizeof shared->name, &made);
    run_afresh(e->variables, e->call, e->context, &made);
}

/* Some runs in which nothing falls say how many steps there are: twice as many are drawn from. */
static uint32_t measure_steps(struct exploration *e) {
    uint32_t most = 1;
    for (uint32_t seed = 1; seed <= MEASURED; seed++) {
        struct iocsq_priorities none = { 1, 1, seed };
        run_by_priorities(e, none);
        most = shared->run.steps > most ? shared->run.steps : most;
    }
    return 2 * most;
}

static void draw_runs(void *of) {
    struct exploration *e = of;
    iocsq_begin_races();
    e->variables = iocsq_save_variables();
    struct iocsq_priorities drawn = { e->depth, measure_steps(e), 0 };
    shared->explored.Steps = drawn.steps;
    for (drawn.seed = 1; drawn.seed <= e->most; drawn.seed++) {
        run_by_priorities(e, drawn);
        bool longer = shared->run.steps > drawn.steps;
        shared->explored.Schedules += !longer;
        shared->explored.Longer += longer;
        shared->explored.Threads = shared->run.threads > shared->explored.Threads
                                       ? shared->run.threads
                                       : shared->explored.Threads;
    }
}

IOCSQ_EXPLORED IocsqDraw(VOID (*Run)(PVOID Context), PVOID Context, ULONG Depth, ULONG Runs) {
    if (Depth < 1 || Depth > IOCSQ_DEPTH) {
        iocsq_fail("a depth that isn't from 1 to %u", (unsigned)IOCSQ_DEPTH);
    }
    begin_exploration();
    struct exploration e = { .call = Run, .context = Context, .depth = Depth, .most = Runs };
    return end_exploration(iocsq_run_apart(draw_runs, &e));
}

/* ---- One schedule alone ---- */
VOID IocsqReplay(VOID (*Run)(PVOID Context), PVOID Context, const char *Schedule) {
    struct iocsq_plan made = { .count = 0 };
    iocsq_begin_races();
    iocsq_read_plan(Schedule, &made);
    begin_exploration();
    run_plan(Run, Context, &made);
}
