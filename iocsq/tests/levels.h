/* Every schedule of several scenarios, level by level: for bounded.c, which has `run`, and
 * `read_scenario` for it. */
#ifndef LEVELS_H
#define LEVELS_H
#include "../system.h"
#include "program.h"

#include <string.h>

#define USAGE                                                                                      \
    "bounded [OPTION..] [--seconds N] PREEMPTIONS SCENARIO.., bounded [OPTION..] --depth DEPTH "   \
    "RUNS "                                                                                        \
    "SCENARIO.. or bounded [OPTION..] [--stop CALL] --schedule SCHEDULE SCENARIO; an OPTION is "   \
    "--races LEVEL, --iso, --unreduced or --traces FILE"

static void run(void *context);
static void read_scenario(const char *path);
/* Ends the program if the schedule that the scenario names is wrong again. */
static void run_remembered(const char *path);

static const char *preemptions_of(ULONG count) {
    static char text[32];
    snprintf(text, sizeof text, "%u preemption%s", count, count == 1 ? "" : "s");
    return text;
}

static double seconds(void) {
    return (double)iocsq_clock() / 1e9;
}

/* What came of the scenarios with at most so many preemptions. */
struct level {
    ULONG64 schedules, classes;
    bool checked; /* the driver's accesses were */
    bool inserted;
    int unfinished; /* scenarios, for want of time */
};

/* A scenario's file, and how many schedules it had in the level before. */
struct scenario {
    const char *path;
    ULONG64 schedules;
};

/* Ends the program if a schedule was wrong. */
static void check_explored(const char *path, const IOCSQ_EXPLORED *explored, ULONG64 schedules) {
    if (explored->Status == 0) {
        return;
    }
    bool itself = explored->Status == IOCSQ_ABORTED;
    if (itself) {
        printf("%s: iocsq itself ended schedule %llu\n", path,
               (unsigned long long)explored->Schedules);
    } else {
        printf("%s: schedule %llu is wrong, with %s and none with fewer: --schedule %s shows it "
               "again\n",
               path, (unsigned long long)explored->Schedules,
               preemptions_of(explored->Preemptions),
               explored->Schedule);
    }
    printf("%llu schedules, at most %s, not all run%s\n", (unsigned long long)schedules,
           preemptions_of(explored->Preemptions), itself ? "" : ", 1 wrong");
    exit(explored->Status);
}

/* `prints`: says what came of it. */
static void explore(struct scenario *s, ULONG most, struct level *level, bool prints) {
    read_scenario(s->path);
    double begun = seconds();
    IOCSQ_EXPLORED explored = IocsqExplore(run, NULL, most);
    s->schedules = explored.Schedules;
    level->schedules += explored.Schedules;
    level->classes += explored.Classes;
    level->checked = explored.Checked;
    level->inserted = level->inserted || explored.Inserted > 0;
    level->unfinished += explored.Unfinished;
    check_explored(s->path, &explored, level->schedules);
    if (prints) {
        printf("%s: %llu schedules, %.0f in a second%s%s\n", s->path,
               (unsigned long long)explored.Schedules,
               (double)explored.Schedules / (seconds() - begun + 1e-9),
               explored.Inserted ? "" : ", nothing was inserted",
               explored.Unfinished ? ", not all run" : "");
    }
}

static double time_over; /* when it is; 0: never */

/* Whether it is. If not, the next exploration ends with it. */
static bool is_time_over(void) {
    double left = time_over - seconds();
    if (time_over > 0) {
        IocsqExploreWithin(left < 1 ? 1 : (ULONG)left);
    }
    return time_over > 0 && left < 1;
}

static int by_schedules(const void *first, const void *second) {
    const struct scenario *a = first, *b = second;
    return a->schedules != b->schedules ? (a->schedules < b->schedules ? -1 : 1)
                                        : strcmp(a->path, b->path);
}

/* All scenarios with at most so many preemptions: first those that had the fewest schedules. */
static struct level explore_level(struct scenario *scenarios, int count, ULONG most, bool last) {
    struct level level = { 0 };
    for (int at = 0; at < count; at++) {
        if (is_time_over()) {
            level.unfinished++;
        } else {
            explore(&scenarios[at], most, &level, last);
        }
    }
    qsort(scenarios, (size_t)count, sizeof *scenarios, by_schedules);
    if (level.unfinished > 0) {
        printf("at most %s: %llu schedules, %d of %d scenarios: the time is over\n",
               preemptions_of(most), (unsigned long long)level.schedules, count - level.unfinished,
               count);
    } else if (!last) {
        printf("at most %s: %llu schedules, none wrong\n", preemptions_of(most),
               (unsigned long long)level.schedules);
    }
    fflush(stdout);
    return level;
}

/* What is known in the end: the last level of which all was run. */
static int print_level(const struct level *level, ULONG most, bool all) {
    if (!level->inserted) {
        fprintf(stderr, "iocsq: nothing was inserted: no scenario sent what the driver queues\n");
    }
    printf("%llu schedules", (unsigned long long)level->schedules);
    if (level->checked) {
        printf(" of %llu classes", (unsigned long long)level->classes);
    }
    printf(", at most %s%s, %s run, none wrong%s%s\n", preemptions_of(most),
           level->checked ? ", each access of the driver checked" : "", all ? "all" : "not all",
           level->checked ? ", no data race" : "",
           level->inserted ? "" : ", and nothing inserted");
    return level->inserted ? 0 : IOCSQ_TESTED_NOTHING;
}

/* First all scenarios without a preemption, then with one, and so on: so what is found first has
 * the fewest. */
static int explore_levels(struct scenario *scenarios, int count, ULONG preemptions) {
    struct level before = { 0 }, level = before;
    ULONG most = 0;
    for (;; most++, before = level) {
        level = explore_level(scenarios, count, most, most == preemptions);
        if (level.unfinished > 0 || most == preemptions) {
            break;
        }
    }
    bool all = level.unfinished == 0;
    return all || most == 0 ? print_level(&level, most, all)
                            : print_level(&before, most - 1, true);
}

static int explore_all(int argc, char **argv) {
    int first = 2, count = argc > first ? argc - first : 0;
    ULONG preemptions = (ULONG)number_of_argument(argc, argv, 1, 0, 8, USAGE);
    struct scenario *scenarios = calloc((size_t)count + 1, sizeof *scenarios);
    if (!scenarios) {
        return 1;
    }
    for (int at = 0; at < count; at++) {
        scenarios[at].path = argv[first + at];
        run_remembered(scenarios[at].path);
    }
    int status = explore_levels(scenarios, count, preemptions);
    free(scenarios);
    return status;
}

#endif
