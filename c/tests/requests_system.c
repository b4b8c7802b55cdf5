/* The code of csq_requests.h over a system that refuses each thing that its calls take, and whose
 * clock stands still. Macros lead its calls here. */
#define _POSIX_C_SOURCE 200809L
#include "csq_ledger.h"

#include <errno.h>
#include <pthread.h>
#include <stdlib.h>
#include <sys/eventfd.h>
#include <time.h>
#include <unistd.h>

/* How many of each kind are out. */
enum kind { BLOCK, LEDGER, ATTRIBUTES, SIGNAL, MUTEX, EVENTFD, THREAD, KINDS };
static long out[KINDS];

/* How many were asked for, and which of them is refused: 0 is none. */
static unsigned asked, refused;

static int refuses(void) {
    asked++;
    return asked == refused;
}

static uint32_t taken(enum kind kind, uint32_t code) {
    out[kind] += code == 0;
    return code;
}

static uint32_t given(enum kind kind, uint32_t code) {
    out[kind] -= code == 0;
    return code;
}

static void *counted(void *block) {
    out[BLOCK] += block != NULL;
    return block;
}

static int opened(int fd) {
    out[EVENTFD] += fd >= 0;
    return fd;
}

static void freed(void *block) {
    out[BLOCK] -= block != NULL;
    free(block);
}

/* The clock returns the last nanosecond of a second, long ago, so that each time limit is over. */
static unsigned looks;
static struct timespec still = { 7, 999999999 };
static int read_clock(clockid_t clock, struct timespec *now) {
    *now = still;
    looks++;
    return clock == CLOCK_MONOTONIC ? 0 : -1;
}

#define calloc(count, bytes) (refuses() ? NULL : counted(calloc(count, bytes)))
#define free(block) freed(block)
#define clock_gettime(clock, now) (read_clock(clock, now) == 0 ? (void)0 : abort())

#define TAKEN(kind, code, call) (refuses() ? (code) : taken(kind, (uint32_t)(call)))
#define csq_ledger_new(...) TAKEN(LEDGER, CSQ_NO_MEMORY, csq_ledger_new(__VA_ARGS__))
#define csq_ledger_new_with_file_limits(...) \
    TAKEN(LEDGER, CSQ_NO_MEMORY, csq_ledger_new_with_file_limits(__VA_ARGS__))
#define pthread_create(...) TAKEN(THREAD, EAGAIN, pthread_create(__VA_ARGS__))
#define eventfd(...) (refuses() ? -1 : opened(eventfd(__VA_ARGS__)))
#define pthread_condattr_init(...) TAKEN(ATTRIBUTES, ENOMEM, pthread_condattr_init(__VA_ARGS__))
#define pthread_cond_init(...) TAKEN(SIGNAL, EAGAIN, pthread_cond_init(__VA_ARGS__))
#define pthread_mutex_init(...) TAKEN(MUTEX, EAGAIN, pthread_mutex_init(__VA_ARGS__))

#define csq_ledger_free(...) given(LEDGER, csq_ledger_free(__VA_ARGS__))
#define pthread_join(...) given(THREAD, (uint32_t)pthread_join(__VA_ARGS__))
#define close(...) given(EVENTFD, (uint32_t)close(__VA_ARGS__))
#define pthread_condattr_destroy(...) \
    given(ATTRIBUTES, (uint32_t)pthread_condattr_destroy(__VA_ARGS__))
#define pthread_cond_destroy(...) given(SIGNAL, (uint32_t)pthread_cond_destroy(__VA_ARGS__))
#define pthread_mutex_destroy(...) given(MUTEX, (uint32_t)pthread_mutex_destroy(__VA_ARGS__))

/* How often the mutex was taken, and what that was at the last look at the ledger. A sleep comes
 * under the lock of a look: what is done in between would wake nobody. */
static unsigned long locks, locks_of_look, sleeps, late_sleeps;

static int locked(int code) {
    if (code == 0) {
        locks++;
    }
    return code;
}

#define pthread_mutex_lock(mutex) locked(pthread_mutex_lock(mutex))
#define pthread_mutex_trylock(mutex) locked(pthread_mutex_trylock(mutex))
#define LOOK(call) (locks_of_look = locks, (call))
#define csq_ledger_begin(...) LOOK(csq_ledger_begin(__VA_ARGS__))
#define csq_ledger_take(...) LOOK(csq_ledger_take(__VA_ARGS__))
#define csq_ledger_drain_next(...) LOOK(csq_ledger_drain_next(__VA_ARGS__))
#define csq_ledger_next_due(...) LOOK(csq_ledger_next_due(__VA_ARGS__))
#define SLEEP(call) (sleeps++, late_sleeps += locks_of_look != locks, (call))
#define pthread_cond_wait(...) SLEEP(pthread_cond_wait(__VA_ARGS__))
#define pthread_cond_timedwait(...) SLEEP(pthread_cond_timedwait(__VA_ARGS__))

#include "../requests/calls.c"
#include "../requests/ends.c"
#include "../requests/make.c"
#include "../requests/wait.c"
#include "requests_check.h"

static void nothing_is_out(void) {
    for (int kind = 0; kind < KINDS; kind++) {
        IS((unsigned long)out[kind], 0);
    }
}

/* A queue is made, and the thing with this number that it asks for is refused: then nothing of the
 * queue is kept. */
static struct csq_requests *made_but_for(unsigned which, uint32_t list, const uint32_t *limits) {
    struct csq_requests *requests = NULL;
    struct csq_size size = size_of(4, FILES, list);
    uint32_t code;
    asked = 0;
    refused = which;
    code = csq_requests_new(&requests, &size, limits, NULL);
    refused = 0;
    IS(code, asked < which ? CSQ_OK : CSQ_NO_MEMORY);
    CHECK((code == CSQ_OK) == (requests != NULL));
    return requests;
}

static unsigned refuse_each(uint32_t list, const uint32_t *limits) {
    struct csq_requests *requests;
    unsigned which = 0;
    while (!(requests = made_but_for(++which, list, limits)) && which < 100) {
        nothing_is_out();
    }
    IS(csq_requests_free(&requests), CSQ_OK);
    nothing_is_out();
    return which - 1;
}

static void a_queue_that_is_refused_something_keeps_nothing(uint32_t list) {
    static const uint32_t limits[FILES] = { 1, 2, 3 };
    /* Three blocks, a ledger, a mutex, and two signals with their attributes of the queue, of each
     * file object and of all. */
    IS(refuse_each(list, NULL), 3 + 1 + 1 + (1 + FILES + 1) * 3);
    IS(refuse_each(list, limits), 3 + 1 + 1 + (1 + FILES + 1) * 3);
}

/* One request's whole way, and the ends of others. */
static void no_other_call_takes_anything(uint32_t list) {
    struct csq_requests *requests = made(2, list, NULL);
    struct csq_request request;
    struct csq_irp name;
    void *value = NULL;
    asked = 0;
    for (int turn = 0; turn < 5; turn++) {
        submit(requests, 1, 0, 0);
        name = submit(requests, 2, 1, 0);
        IS(next(requests, 0, &request), 1);
        IS(csq_requests_put_back(requests, &request, 0), CSQ_OK);
        IS(csq_requests_next(requests, 0, 1, &request), CSQ_OK);
        IS(csq_requests_complete(requests, &request, CSQ_STATUS_SUCCESS), CSQ_OK);
        IS(csq_requests_cancel(requests, name, &value), CSQ_OK);
        submit(requests, 3, 1, 0);
        IS(csq_requests_drain(requests, 1, 1), CSQ_OK);
    }
    IS(csq_requests_cleanup(requests, 1, 1), CSQ_OK);
    csq_requests_close(requests);
    IS(csq_requests_free(&requests), CSQ_OK);
    IS(asked, 0);
    nothing_is_out();
}

static void a_time_ends_so_many_milliseconds_later(void) {
    static const struct { uint32_t milliseconds; long seconds, nanoseconds; } rows[] = {
        { 1, 8, 999999 }, { 999, 8, 998999999 }, { 1000, 8, 999999999 }, { 1001, 9, 999999 },
        { CSQ_FOREVER - 1, 7 + 4294967 + 1, 293999999 }
    };
    for (size_t at = 0; at < sizeof rows / sizeof *rows; at++) {
        struct timespec end = requests_limit_of(rows[at].milliseconds).end;
        IS((unsigned long)end.tv_sec, (unsigned long)rows[at].seconds);
        IS((unsigned long)end.tv_nsec, (unsigned long)rows[at].nanoseconds);
    }
}

/* The end of a wait is a time: less than a second of nanoseconds, from whichever time on. */
static void the_end_of_a_wait_is_a_time(void) {
    const struct timespec before = still;
    for (uint32_t milliseconds = 1; milliseconds < 3000; milliseconds++) {
        CHECK(requests_limit_of(milliseconds).end.tv_nsec < 1000000000);
        still.tv_nsec = (long)(milliseconds % 7) * 100000000;
    }
    still = before;
}

/* A thread that waits looks at the clock once, so that no wake gives it more time. */
static void a_limit_is_from_the_call_on(uint32_t list) {
    struct csq_requests *requests = made(2, list, NULL);
    struct csq_request taken;
    looks = 0;
    IS(csq_requests_next(requests, 0, 0, &taken), CSQ_NONE);
    IS(csq_requests_drain(requests, 0, CSQ_FOREVER), CSQ_OK);
    IS(looks, 0);
    IS(csq_requests_next(requests, 0, SHORT_TIME, &taken), CSQ_NONE);
    IS(looks, 1);
    submit(requests, 1, 0, 0);
    IS(next(requests, 0, &taken), 1);
    IS(csq_requests_drain(requests, 0, SHORT_TIME), CSQ_HOLDING);
    IS(looks, 2);
    IS(csq_requests_complete(requests, &taken, 0), CSQ_OK);
    IS(csq_requests_free(&requests), CSQ_OK);
}

static void until_the_clock_sleeps(struct csq_requests *requests) {
    uint64_t wakes = 0;
    while (wakes == 0) {
        requests_lock(requests);
        wakes = requests->wakes;
        requests_unlock(requests);
        sched_yield();
    }
}

/* Of a worker, a submit, a drain and the clock. */
static void each_sleep_follows_a_look(uint32_t list) {
    struct csq_requests *requests = made(1, list, NULL);
    const struct csq_submit how = { number(2), 0, 0, SHORT_TIME, 0 };
    struct csq_irp name = { 0, 0 };
    struct csq_request taken;
    sleeps = late_sleeps = 0;
    IS(csq_requests_next(requests, 0, SHORT_TIME, &taken), CSQ_NONE);
    submit(requests, 1, 0, 0);
    IS(csq_requests_submit_with(requests, &how, &name), CSQ_FULL);
    IS(next(requests, 0, &taken), 1);
    IS(csq_requests_drain(requests, 0, SHORT_TIME), CSQ_HOLDING);
    IS(csq_requests_start_clock(requests), CSQ_OK);
    until_the_clock_sleeps(requests);
    IS(csq_requests_complete(requests, &taken, 0), CSQ_OK);
    IS(csq_requests_free(&requests), CSQ_OK);
    CHECK(sleeps >= 4);
    IS(late_sleeps, 0);
}

/* What the calls for event loops and the clock take is given back with the queue. */
static void what_is_refused_later_is_told(uint32_t list) {
    struct csq_requests *requests = made(2, list, NULL);
    int fd = -7;
    refused = asked + 1;
    IS(csq_requests_fd(requests, 0, &fd), CSQ_NO_MEMORY);
    refused = asked + 1;
    IS(csq_requests_room_fd(requests, CSQ_ANY, &fd), CSQ_NO_MEMORY);
    refused = asked + 1;
    IS(csq_requests_start_clock(requests), CSQ_NO_MEMORY);
    IS((unsigned)fd, (unsigned)-7);
    refused = 0;
    IS(csq_requests_fd(requests, 0, &fd), CSQ_OK);
    IS(csq_requests_room_fd(requests, CSQ_ANY, &fd), CSQ_OK);
    IS(csq_requests_start_clock(requests), CSQ_OK);
    IS(csq_requests_start_clock(requests), CSQ_NOT_EMPTY);
    IS(csq_requests_free(&requests), CSQ_OK);
    nothing_is_out();
}

int main(void) {
    RUN_BOTH(what_is_refused_later_is_told);
    RUN_BOTH(a_queue_that_is_refused_something_keeps_nothing);
    RUN_BOTH(no_other_call_takes_anything);
    RUN(a_time_ends_so_many_milliseconds_later);
    RUN(the_end_of_a_wait_is_a_time);
    RUN_BOTH(a_limit_is_from_the_call_on);
    RUN_BOTH(each_sleep_follows_a_look);
    return DONE();
}
