/* Threads that open file objects, read, write, control, cancel and close at random, on whatever
 * driver is linked:
 *
 *     storm THREADS TURNS SEED                    threads run freely, with delays at random
 *     storm THREADS TURNS SEED turns [SWITCHES]   one runs at a time, as the seed draws; at most
 *                                                 SWITCHES switches
 *     storm --races LEVEL THREADS ..              checks the driver's accesses (IocsqRaces), in
 *                                                 turns
 *     storm --iso THREADS ..                      volatile orders nothing (IocsqVolatile)
 *     storm --stop CALL THREADS ..                stops for a debugger (SIGTRAP) as it makes the
 *                                                 call of this number, as a report has it; in turns
 *
 * It ends with status 0, with 70 after a report (IOCSQ_DISAGREES), and with 71 if something never
 * happened without which the run says nothing of the driver's queue (IOCSQ_TESTED_NOTHING). If that
 * is so after all turns, more rounds of turns follow until it has happened, unless SWITCHES are
 * given: in every other one all threads send requests of one kind, since a driver may answer most
 * requests at once.
 * 72: a policy is missing, or a peek context isn't what it says (IOCSQ_NO_POLICY).
 * 2: an argument is wrong.
 */
#include "program.h"

#include <stdatomic.h>

#define USAGE "storm [--races LEVEL] [--iso] [--stop CALL] THREADS TURNS SEED [turns [SWITCHES]]"
enum { THREADS = 32, CANCELLERS = 3, OPEN = 6, MINE = 12, BYTES = 16, LONGEST = 4, SECONDS = 100 };
enum { SCARCE = 64 }; /* of so many allocations of the driver's one fails */
enum { SHORTEST_PAUSE = 20, LONGEST_PAUSE = 320 }; /* microseconds */
enum { MORE_TURNS = 500, TIMES = 2 }; /* of a further round; of each kind alone, so many rounds */

static PDRIVER_OBJECT driver;
static long turns;
static ULONG patience = 20000; /* milliseconds */
static _Atomic unsigned long succeeded, cancelled, timed_out, refused, cancels;
static _Atomic int ending;
static int only = KIND_ANY; /* what is sent in this round */

/* A request under way: its buffer stays where it is until the request was completed. */
struct request {
    IOCSQ_REQUEST *sent; /* null: none */
    PFILE_OBJECT file;
    bool beside; /* another user's file object */
    unsigned char buffer[BYTES];
};

struct user {
    uint32_t dice, numbers; /* what it does; what its requests bring */
    PFILE_OBJECT files[OPEN];
    struct request requests[MINE];
};

static uint32_t roll(struct user *u, uint32_t below) {
    return next_of(&u->dice, below);
}

static void reap(struct request *r) {
    switch (IocsqStatus(r->sent)) {
    case STATUS_SUCCESS: succeeded++; break;
    case STATUS_CANCELLED: cancelled++; break;
    case STATUS_TIMEOUT:
    case STATUS_IO_TIMEOUT: timed_out++; break;
    default: refused++;
    }
    IocsqFree(r->sent);
    r->sent = NULL;
}

/* ---- What a user does ---- */
/* What is odd about some device controls, each kind in one of CONTROLS: anyone may send a driver a
 * code that it doesn't know, and buffers of no bytes. */
enum oddity { OTHER_CODE, NO_INPUT, NO_OUTPUT, NO_BUFFER, CONTROLS = 32 };

static ULONG control_code(struct user *u) {
    uint32_t count = count_controls();
    if (only != KIND_ANY) {
        return code_of_kind(only);
    }
    return count ? DriverControls[roll(u, count)] : (ULONG)ANY_CONTROL;
}

/* One above all of DriverControls. */
static ULONG other_code(void) {
    ULONG most = ANY_CONTROL;
    for (uint32_t at = 0; DriverControls && DriverControls[at]; at++) {
        most = DriverControls[at] > most ? DriverControls[at] : most;
    }
    return most + CONTROL(1) - CONTROL(0);
}

static IOCSQ_REQUEST *control(struct user *u, PFILE_OBJECT file, unsigned char *buffer,
                              ULONG length) {
    uint32_t odd = roll(u, CONTROLS);
    ULONG code = odd == OTHER_CODE ? other_code() : control_code(u);
    ULONG input = odd == NO_INPUT || odd == NO_BUFFER ? 0 : length;
    ULONG output = odd == NO_OUTPUT || odd == NO_BUFFER ? 0 : BYTES;
    return IocsqControl(file, code, buffer, input, output);
}

static void send(struct user *u, struct request *r, PFILE_OBJECT file, bool beside) {
    uint32_t act = roll(u, 16);
    ULONG length = 1 + roll(u, LONGEST);
    if (r->sent) {
        return;
    }
    r->file = file;
    r->beside = beside;
    fill_buffer(&u->numbers, r->buffer, BYTES);
    int drawn = act < 10 ? KIND_READ : act < 13 ? KIND_CONTROL : KIND_WRITE;
    int kind = only == KIND_ANY ? drawn : only;
    if (kind >= KIND_CONTROL) {
        r->sent = control(u, file, r->buffer, length);
    } else {
        UCHAR major = kind == KIND_READ ? IRP_MJ_READ : IRP_MJ_WRITE;
        r->sent = IocsqSend(file, major, r->buffer, length);
    }
}

/* On a file object that its user may be closing. */
static void send_beside(struct user *u, struct request *r) {
    PFILE_OBJECT file = r->sent ? NULL : IocsqReferenceAny();
    if (file) {
        IocsqHandOver(file);
        send(u, r, file, true);
    }
}

/* What a cleanup of another user left isn't cancelled, so that it is reported. */
static void cancel(struct user *u, struct request *r) {
    if (!r->sent || r->beside) {
        return;
    }
    IocsqCancel(r->sent);
    cancels++; /* found or not */
    if (roll(u, 2) == 0) {
        if (!IocsqWait(r->sent, patience)) {
            IocsqComplain(r->sent, "was cancelled, and was never completed");
        }
        reap(r);
    }
}

static void close_file(struct user *u, PFILE_OBJECT *file) {
    IocsqClose(*file);
    for (uint32_t at = 0; at < MINE; at++) {
        struct request *r = &u->requests[at];
        if (r->sent && r->file == *file) {
            if (!IocsqWait(r->sent, 0)) {
                IocsqComplain(r->sent, "outlived its file object");
            }
            reap(r);
        }
    }
    *file = NULL;
}

static void take_turn(struct user *u) {
    struct request *r = &u->requests[roll(u, MINE)];
    PFILE_OBJECT *file = &u->files[roll(u, OPEN)];
    uint32_t act = roll(u, 32);
    if (!*file && !(*file = IocsqOpen(driver))) {
        return; /* for want of memory, say */
    }
    if (r->sent && IocsqWait(r->sent, 0)) {
        reap(r);
    }
    if (act < 14) {
        send(u, r, *file, false);
    } else if (act < 16) {
        send_beside(u, r);
    } else if (act < 28) {
        cancel(u, r);
    } else if (act == 28) {
        close_file(u, file);
    } else if (act == 29) {
        IocsqInterrupt(0);
    }
}

static void *use(void *user) {
    struct user *u = user;
    for (long turn = 0; turn < turns; turn++) {
        take_turn(u);
    }
    for (uint32_t at = 0; at < OPEN; at++) {
        if (u->files[at]) {
            close_file(u, &u->files[at]);
        }
    }
    return NULL;
}

/* Cancels requests of all users, and waits the longer where there is none to cancel. */
static void *cancel_any(void *of) {
    ULONG pause = SHORTEST_PAUSE;
    while (!ending) {
        BOOLEAN found = IocsqCancelAny();
        cancels += found;
        pause = found ? SHORTEST_PAUSE : pause < LONGEST_PAUSE ? 2 * pause : pause;
        IocsqPause(pause);
    }
    return of;
}

/* ---- The run ---- */
static struct user users[THREADS];
static IOCSQ_THREAD started[THREADS], cancellers[CANCELLERS];

static void seed_users(int threads, uint32_t seed) {
    for (int at = 0; at < threads; at++) {
        users[at].dice = users[at].numbers = (uint32_t)at * 7919u + seed * 104729u + 1;
    }
}

static void start_users(int threads) {
    for (int at = 0; at < threads; at++) {
        started[at] = IocsqThread(use, &users[at]);
    }
}

static void join_users(int threads) {
    for (int at = 0; at < threads; at++) {
        IocsqJoin(started[at]);
    }
}

static void start_cancellers(void) {
    for (int at = 0; at < CANCELLERS; at++) {
        cancellers[at] = IocsqThread(cancel_any, NULL);
    }
}

static void join_cancellers(void) {
    ending = 1;
    for (int at = 0; at < CANCELLERS; at++) {
        IocsqJoin(cancellers[at]);
    }
}

/* Until all has happened. */
static void run_more_rounds(int threads) {
    int most = 2 * TIMES * count_kinds();
    turns = MORE_TURNS;
    for (int at = 0; at < most && !IocsqCovered(); at++) {
        only = at % 2 ? at / 2 % count_kinds() : KIND_ANY;
        start_users(threads);
        join_users(threads);
    }
}

/* `goes_on`: with more rounds, if something hasn't happened. */
static void run(int threads, uint32_t seed, bool goes_on) {
    driver = load_driver("storm");
    IocsqScarce(SCARCE);
    seed_users(threads, seed);
    start_users(threads);
    start_cancellers();
    join_users(threads);
    if (goes_on) {
        run_more_rounds(threads);
    }
    join_cancellers();
    IocsqScarce(0);
    IocsqUnload(driver);
}

static void print_counts(void) {
    IOCSQ_COUNTS c = IocsqCounts();
    printf("inserted %llu refused %llu removed %llu cancelled %llu completed %llu, peeks %llu, "
           "audits %llu; succeeded %lu cancelled %lu timed out %lu refused %lu of %lu cancels; "
           "%llu switches\n",
           (unsigned long long)c.Inserted, (unsigned long long)c.Refused,
           (unsigned long long)c.Removed, (unsigned long long)c.Cancelled,
           (unsigned long long)c.Completed, (unsigned long long)c.Peeks,
           (unsigned long long)c.Audits, succeeded, cancelled, timed_out, refused, cancels,
           (unsigned long long)c.Switches);
}

static long number(int argc, char **argv, int at, long least, long most) {
    return number_of_argument(argc, argv, at, least, most, USAGE);
}

int main(int argc, char **argv) {
    IocsqRaces(1);
    while (take_option(&argc, &argv, USAGE)) {
    }
    int threads = (int)number(argc, argv, 1, 1, THREADS);
    turns = number(argc, argv, 2, 1, 1000000000);
    uint32_t seed = (uint32_t)number(argc, argv, 3, 1, 1000000000);
    IocsqLimit(SECONDS);
    if (argc > 4) {
        IocsqTurns(seed);
        patience = 2000;
        IocsqSwitches(argc > 5 ? (ULONG)number(argc, argv, 5, 0, 1000000000) : 0);
    } else {
        IocsqChaos(seed);
    }
    run(threads, seed, argc <= 5);
    print_counts();
    return IocsqCoverage() ? 0 : IOCSQ_TESTED_NOTHING;
}
