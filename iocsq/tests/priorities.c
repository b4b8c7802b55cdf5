/* Runs by priorities, against the bound that is said of them: one thread passes POINTS points,
 * another a single one. That it comes just after the K-th of the others is a fault of depth 2, and
 * each K has to come in as many runs as the bound has it: priorities POINTS RUNS. */
#include "iocsq_test.h"
#include "system.h"

#include <stdio.h>
#include <stdlib.h>

enum { POINTS = 64 };

static unsigned long long *hits; /* shared with the process that runs it; one for each K */
static int points, passed;

static void *pass_points(void *of) {
    for (passed = 0; passed < points; passed++) {
        IocsqPoint();
    }
    return of;
}

static void *pass_one(void *of) {
    IocsqPoint();
    hits[passed]++;
    return of;
}

static void run(void *context) {
    IOCSQ_THREAD started[2];
    (void)context;
    IocsqChoices();
    started[0] = IocsqThread(pass_points, NULL);
    started[1] = IocsqThread(pass_one, NULL);
    IocsqJoinAll(started, 2);
}

int main(int argc, char **argv) {
    if (argc < 3 || (points = atoi(argv[1])) >= POINTS) {
        return 2;
    }
    hits = iocsq_map_shared(POINTS * sizeof *hits, "no memory for what was hit");
    IocsqBounded();
    IOCSQ_EXPLORED explored = IocsqDraw(run, NULL, 2, (ULONG)atoi(argv[2]));
    unsigned long long least = explored.Schedules / (explored.Threads * explored.Steps), few = 0;
    for (int at = 0; at <= points; at++) {
        few += hits[at] < least;
    }
    printf("%llu runs, %u threads, %u steps: at least %llu each; %llu of %d have fewer, %llu were "
           "longer, status %d\n",
           (unsigned long long)explored.Schedules, explored.Threads, explored.Steps, least, few,
           points + 1, (unsigned long long)explored.Longer, explored.Status);
    return least > 0 && few == 0 && explored.Longer == 0 && explored.Status == 0 ? 0 : 1;
}
