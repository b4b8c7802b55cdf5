/* The bounded mode by itself: threads that do nothing but let others come between. How many
 * schedules there are is counted here in another way, by who can go on at each point: explore
 * THREADS POINTS PREEMPTIONS. */
#include "iocsq_test.h"

#include <stdio.h>
#include <stdlib.h>

enum { THREADS = 3 };

static int threads, points;

static void *pass_points(void *of) {
    for (int at = 0; at < points; at++) {
        IocsqPoint();
    }
    return of;
}

static void run(void *context) {
    IOCSQ_THREAD started[THREADS];
    (void)context;
    IocsqChoices();
    for (int at = 0; at < threads; at++) {
        started[at] = IocsqThread(pass_points, NULL);
    }
    IocsqJoinAll(started, (ULONG)threads);
}

/* The schedules from here on, of threads with this many points left (-1: it has ended), where
 * `running` goes on or is preempted; -1: nobody runs, and the one that goes on does so for
 * nothing. */
static unsigned long long count(const int *left, int running, int preemptions) {
    unsigned long long sum = 0;
    int over = 1;
    for (int next = 0; next < threads; next++) {
        int after[THREADS] = { 0 }, cost = running >= 0 && next != running;
        for (int at = 0; at < threads; at++) {
            after[at] = left[at];
        }
        if (left[next] < 0) {
            continue;
        }
        over = 0;
        if (preemptions >= cost) { /* it runs to its next point, or to its end */
            after[next]--;
            sum += count(after, after[next] < 0 ? -1 : next, preemptions - cost);
        }
    }
    return over ? 1 : sum;
}

int main(int argc, char **argv) {
    if (argc < 4) {
        return 2;
    }
    threads = atoi(argv[1]);
    points = atoi(argv[2]);
    int preemptions = atoi(argv[3]), left[THREADS] = { points, points, points };
    unsigned long long expected = count(left, -1, preemptions);
    IocsqBounded();
    IOCSQ_EXPLORED explored = IocsqExplore(run, NULL, (ULONG)preemptions);
    printf("%llu schedules of %llu, status %d\n", (unsigned long long)explored.Schedules, expected,
           explored.Status);
    return explored.Schedules == expected && explored.Status == 0 ? 0 : 1;
}
