/* What each thread and each run has of its own: a deep stack, errno, the program's variables. And
 * what ends a run that takes longer than it may: limits free|turns|search|limit|deep. */
#include "iocsq_test.h"
#include "system.h"

#include <errno.h>
#include <stdio.h>
#include <stdlib.h>
#include <string.h>

enum { FRAME = 2048, DEEP = 4 << 20, TURNS = 8 };

static volatile int one = 1, none; /* a run sets them, and the next one begins with these again */

static void go_round(void *context) {
    (void)context;
    IocsqLimit(1);
    one = 5;
    while (none == 0) {
    }
}

/* Whether the stack has room for this many frames. */
static int reach(int frames) {
    volatile char frame[FRAME];
    frame[frames % FRAME] = (char)frames;
    return frames == 0 ? frame[0] == 0 : reach(frames - 1) && frame[frames % FRAME] == (char)frames;
}

static void *reach_deep(void *of) {
    IocsqPoint();
    return reach(DEEP / FRAME) ? of : NULL;
}

static void *reach_all(void *of) {
    return reach(DEEP) ? of : NULL;
}

/* errno stays each thread's own while others run. */
static void *keep_errno(void *of) {
    int turn = 0;
    for (errno = *(int *)of; turn < TURNS && errno == *(int *)of; turn++) {
        IocsqPoint();
    }
    return turn == TURNS ? of : NULL;
}

static void *(*const starts[])(void *) = { reach_deep, keep_errno, keep_errno };
enum { THREADS = sizeof starts / sizeof *starts };

static void *start(void *of) {
    int at = *(int *)of;
    if (!starts[at](of)) {
        fprintf(stderr, "thread %d: its stack or its errno isn't its own\n", at);
        abort();
    }
    return of;
}

static void run_threads(void *context) {
    IOCSQ_THREAD threads[THREADS];
    int numbers[THREADS];
    (void)context;
    if (one != 1 || none != 0) {
        fprintf(stderr, "the run has another's variables: %d, %d\n", one, none);
        abort();
    }
    one = none = 5;
    IocsqChoices();
    for (int at = 0; at < THREADS; at++) {
        numbers[at] = at;
        threads[at] = IocsqThread(start, &numbers[at]);
    }
    IocsqJoinAll(threads, THREADS);
}

/* Who tries to lock what is locked is told so. */
static int try_twice(void) {
    struct iocsq_mutex mutex = IOCSQ_MUTEX;
    bool first = iocsq_try_lock(&mutex), second = iocsq_try_lock(&mutex);
    iocsq_unlock(&mutex);
    return first && !second && iocsq_try_lock(&mutex);
}

/* The second search finds all as it was before the first, which is ended halfway. */
static int search(void) {
    IocsqBounded();
    IOCSQ_EXPLORED ended = IocsqExplore(go_round, NULL, 0);
    IOCSQ_EXPLORED whole = IocsqExplore(run_threads, NULL, 1);
    printf("status %d, then %d\n", ended.Status, whole.Status);
    return ended.Status == 70 && whole.Status == 0 && whole.Schedules > 1 ? 0 : 1;
}

int main(int argc, char **argv) {
    const char *what = argc > 1 ? argv[1] : "";
    if (strcmp(what, "search") == 0) {
        return search();
    }
    if (strcmp(what, "limit") == 0) {
        go_round(NULL);
    }
    if (strcmp(what, "deep") == 0) {
        iocsq_catch_bad_addresses();
        IocsqJoin(IocsqThread(reach_all, NULL));
    }
    if (strcmp(what, "turns") == 0) {
        IocsqTurns(1);
    }
    run_threads(NULL);
    puts("each thread has its own");
    return try_twice() ? 0 : 1;
}
