/* A patient test: threads send a few requests each, and nobody closes their file objects; in every
 * other round somebody cancels a few requests. Each request has to end in its time, or it wasn't
 * cancelled and the driver's policy says that it may wait (Waits). Then the next round comes, on
 * other file objects:
 *
 *     patient THREADS ROUNDS SEED    one thread runs at a time, as the seed draws
 *
 * It ends as the storm does; with 71 also if no request was queued, unless the policy says that
 * none ever is (NeverInserts). If none was in these rounds, more follow until one is, since a
 * driver may answer most requests at once: some with many requests of all kinds, then some with
 * reads alone, with writes alone, and so on with each kind.
 */
#include "program.h"

#define USAGE "patient [--races LEVEL] [--iso] [--stop CALL] THREADS ROUNDS SEED"
enum { THREADS = 6, ROUNDS = 40, FILES = 2, REQUESTS = 2, BYTES = 16, LONGEST = 4, SECONDS = 100 };
enum { CANCELS = 4, PAUSE = 20 }; /* PAUSE: microseconds */
enum { MORE_REQUESTS = 8, MORE_ROUNDS = 10, TIMES = 2 }; /* so many rounds, so many times */

static PDRIVER_OBJECT driver;
static PFILE_OBJECT files[FILES];
static unsigned long ended, waiting;
static int only = KIND_ANY;                /* what is sent in this round, */
static uint32_t most_requests = REQUESTS; /* and how much by each thread */

struct user {
    uint32_t dice;
    IOCSQ_REQUEST *requests[MORE_REQUESTS];
    unsigned char buffers[MORE_REQUESTS][BYTES];
};
static struct user users[THREADS];

static int draw_kind(struct user *u, uint32_t act) {
    uint32_t count = count_controls();
    if (act < 2 || (act < 6 && count > 1)) { /* of a driver with codes most requests are controls */
        return KIND_CONTROL + (count ? (int)next_of(&u->dice, count) : 0);
    }
    return act % 2 ? KIND_READ : KIND_WRITE;
}

static IOCSQ_REQUEST *send(struct user *u, unsigned char *buffer) {
    PFILE_OBJECT file = files[next_of(&u->dice, FILES)];
    ULONG length = 1 + next_of(&u->dice, LONGEST);
    uint32_t act = next_of(&u->dice, 8);
    fill_buffer(&u->dice, buffer, BYTES);
    int kind = only == KIND_ANY ? draw_kind(u, act) : only;
    if (kind >= KIND_CONTROL) {
        return IocsqControl(file, code_of_kind(kind), buffer, length, BYTES);
    }
    return IocsqSend(file, kind == KIND_READ ? IRP_MJ_READ : IRP_MJ_WRITE, buffer, length);
}

static void *use(void *user) {
    struct user *u = user;
    uint32_t count = 1 + next_of(&u->dice, most_requests);
    for (uint32_t at = 0; at < count; at++) {
        u->requests[at] = send(u, u->buffers[at]);
    }
    return NULL;
}

static void *cancel_some(void *of) {
    for (int at = 0; at < CANCELS; at++) {
        IocsqCancelAny();
        IocsqPause(PAUSE);
    }
    return of;
}

/* `settle` is called for each request of the round. */
static void for_each_request(int threads, void (*settle)(IOCSQ_REQUEST **request)) {
    for (int at = 0; at < threads * MORE_REQUESTS; at++) {
        IOCSQ_REQUEST **request = &users[at / MORE_REQUESTS].requests[at % MORE_REQUESTS];
        if (*request) {
            settle(request);
        }
    }
}

static void expect_end(IOCSQ_REQUEST **request) {
    BOOLEAN has_ended = IocsqExpectEnd(*request);
    ended += has_ended;
    waiting += !has_ended;
}

static void reap(IOCSQ_REQUEST **request) {
    if (!IocsqWait(*request, 0)) {
        IocsqComplain(*request, "outlived its file object");
    }
    IocsqFree(*request);
    *request = NULL;
}

static void run_round(int threads, bool cancels) {
    IOCSQ_THREAD started[THREADS + 1];
    for (int at = 0; at < FILES; at++) {
        files[at] = IocsqOpen(driver);
    }
    for (int at = 0; at < threads; at++) {
        started[at] = IocsqThread(use, &users[at]);
    }
    if (cancels) {
        started[threads] = IocsqThread(cancel_some, NULL);
    }
    for (int at = 0; at < threads + cancels; at++) {
        IocsqJoin(started[at]);
    }
    for_each_request(threads, expect_end);
    for (int at = 0; at < FILES; at++) {
        IocsqClose(files[at]);
    }
    for_each_request(threads, reap);
}

/* Whether no request was queued, though the policy doesn't say so. */
static bool is_idle(void) {
    bool never = &DriverPolicy && DriverPolicy.NeverInserts;
    return IocsqCounts().Inserted == 0 && !never;
}

static void run_more_rounds(int threads) {
    int kinds = 1 + count_kinds(); /* with KIND_ANY, the first */
    most_requests = MORE_REQUESTS;
    for (int at = 0; at < TIMES * kinds * MORE_ROUNDS && is_idle(); at++) {
        only = KIND_ANY + at / MORE_ROUNDS % kinds;
        run_round(threads, at % 2 != 0);
    }
}

int main(int argc, char **argv) {
    IocsqRaces(1);
    while (take_option(&argc, &argv, USAGE)) {
    }
    int threads = (int)number_of_argument(argc, argv, 1, 1, THREADS, USAGE);
    int rounds = (int)number_of_argument(argc, argv, 2, 1, ROUNDS, USAGE);
    uint32_t seed = (uint32_t)number_of_argument(argc, argv, 3, 1, 1000000000, USAGE);
    IocsqLimit(SECONDS);
    IocsqTurns(seed);
    driver = load_driver("patient");
    for (int at = 0; at < threads; at++) {
        users[at].dice = (uint32_t)at * 7919u + seed * 104729u + 1;
    }
    for (int at = 0; at < rounds; at++) {
        run_round(threads, at % 2 != 0);
    }
    run_more_rounds(threads);
    IocsqUnload(driver);
    printf("inserted %llu, %lu requests ended in their time, %lu waited as they may "
           "(Waits of the policy)\n",
           (unsigned long long)IocsqCounts().Inserted, ended, waiting);
    if (is_idle()) {
        fprintf(stderr, "iocsq: nothing was inserted: no request reached a queue, or waited with a "
                        "cancel routine (do the driver's control codes stand in "
                        "DriverControls?)\n");
        return IOCSQ_TESTED_NOTHING;
    }
    return 0;
}
