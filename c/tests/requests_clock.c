/* The clock of csq_requests.h, which is a thread. */
#include "../requests/requests.h"
#include "requests_check.h"

#include "eventfds.h"

#include <pthread.h>
#include <sched.h>

static void until_none_is_under_way(struct csq_requests *requests) {
    const uint64_t began = csq_requests_now();
    while (under_way(requests, CSQ_ANY) > 0 && csq_requests_now() - began < LONG_TIME) {
        sched_yield();
    }
    IS(under_way(requests, CSQ_ANY), 0);
}

/* It sleeps until the next deadline, or without a limit, and an earlier one wakes it. */
static void the_clock_cancels_in_time(uint32_t list) {
    struct report report;
    struct csq_requests *requests = reported(4, list, &report);
    struct csq_requests_stats stats = { sizeof stats, 0, 0, 0, 0, 0, { 0 }, 0, 0, 0, 0 };
    uint64_t began;
    IS(csq_requests_start_clock(requests), CSQ_OK);
    IS(csq_requests_start_clock(requests), CSQ_NOT_EMPTY);
    began = csq_requests_now();
    submit_until(requests, 1, 0, began + SHORT_TIME);
    until_none_is_under_way(requests);
    CHECK(csq_requests_now() >= began + SHORT_TIME);
    submit_until(requests, 2, 0, began + LONG_TIME);
    submit_until(requests, 3, 1, began);
    while (under_way(requests, 1) > 0 && csq_requests_now() - began < LONG_TIME) {
        sched_yield();
    }
    IS(under_way(requests, CSQ_ANY), 1);
    IS(csq_requests_read_stats(requests, &stats), CSQ_OK);
    IS(stats.ended[CSQ_WHY_DUE], 2);
    IS(csq_requests_free(&requests), CSQ_OK);
    it_ended(&report, CSQ_WHY_FREE, NULL);
    IS(report.count, 6);
}

/* A queue whose requests aren't all completed has no clock any more, and may have another one. */
static void a_free_that_is_refused_ends_the_clock(uint32_t list) {
    struct csq_requests *requests = made(2, list, NULL);
    struct csq_request taken;
    submit(requests, 1, 0, 0);
    IS(next(requests, 0, &taken), 1);
    IS(csq_requests_start_clock(requests), CSQ_OK);
    IS(csq_requests_free(&requests), CSQ_HOLDING);
    IS(csq_requests_start_clock(requests), CSQ_OK);
    IS(csq_requests_complete(requests, &taken, 0), CSQ_OK);
    IS(csq_requests_free(&requests), CSQ_OK);
}

static struct csq_requests *going;
static uint32_t code_of_start;

static void start_a_clock(void *context, const struct csq_ending *ending) {
    (void)context;
    (void)ending;
    code_of_start = csq_requests_start_clock(going);
}

/* A clock that an event of the free started would look at a queue that isn't there. */
static void an_event_of_the_free_starts_no_clock(uint32_t list) {
    const struct csq_requests_events events = { NULL, start_a_clock, NULL };
    going = made(2, list, &events);
    submit(going, 1, 0, 0);
    code_of_start = UNWRITTEN;
    IS(csq_requests_free(&going), CSQ_OK);
    IS(code_of_start, CSQ_NOT_EMPTY);
}

/* The free comes while the clock is in an event, so that it doesn't sleep when it is to end; and
 * waits for it. */
static int is_in_event, event_is_over;

static void pass_short_time(void) {
    const uint64_t began = csq_requests_now();
    while (csq_requests_now() - began < SHORT_TIME) {
        sched_yield();
    }
}

static void wait_for_the_free(void *context, const struct csq_ending *ending) {
    const uint64_t began = csq_requests_now();
    uint32_t clock = REQUESTS_CLOCK_RUNS;
    (void)context;
    (void)ending;
    while (clock != REQUESTS_CLOCK_ENDS && csq_requests_now() - began < LONG_TIME) {
        requests_lock(going);
        is_in_event = 1;
        clock = going->clock;
        requests_unlock(going);
        sched_yield();
    }
    pass_short_time();
    event_is_over = 1;
}

static void a_clock_that_is_in_an_event_ends_too(uint32_t list) {
    const struct csq_requests_events events = { NULL, wait_for_the_free, NULL };
    int is_on = 0;
    going = made(2, list, &events);
    is_in_event = event_is_over = 0;
    submit_until(going, 1, 0, 1);
    IS(csq_requests_start_clock(going), CSQ_OK);
    while (!is_on) {
        requests_lock(going);
        is_on = is_in_event;
        requests_unlock(going);
        sched_yield();
    }
    IS(csq_requests_free(&going), CSQ_OK);
    IS((unsigned)event_is_over, 1);
}

/* What is to be done once the mutex is free comes before the clock's sleep. */
static void the_clock_tells_that_there_is_room(uint32_t list) {
    struct csq_requests *requests = made(1, list, NULL);
    struct csq_irp name = { 0, 0 };
    int room = -1;
    IS(csq_requests_room_fd(requests, CSQ_ANY, &room), CSQ_OK);
    submit_until(requests, 1, 0, csq_requests_now() + SHORT_TIME);
    IS(csq_requests_submit(requests, number(2), 0, 0, &name), CSQ_FULL);
    IS(is_readable(room), 0);
    IS(csq_requests_start_clock(requests), CSQ_OK);
    IS(becomes_readable(room, LONG_TIME), 1);
    IS(csq_requests_free(&requests), CSQ_OK);
}

#ifndef _WIN32 /* which has no signals */
/* A signal that comes where all other threads block it stays pending. */
static void the_clock_takes_no_signals(uint32_t list) {
    struct csq_requests *requests = made(2, list, NULL);
    sigset_t one, before, pending;
    int taken = 0;
    sigemptyset(&one);
    sigaddset(&one, SIGUSR1);
    IS(csq_requests_start_clock(requests), CSQ_OK);
    IS((unsigned)pthread_sigmask(SIG_BLOCK, &one, &before), 0);
    IS((unsigned)sigismember(&before, SIGUSR1), 0); /* the thread that starts it takes them still */
    IS((unsigned)kill(getpid(), SIGUSR1), 0);
    sched_yield();
    IS((unsigned)sigpending(&pending), 0);
    IS((unsigned)sigismember(&pending, SIGUSR1), 1);
    IS((unsigned)sigwait(&one, &taken), 0);
    IS((unsigned)pthread_sigmask(SIG_SETMASK, &before, NULL), 0);
    IS(csq_requests_free(&requests), CSQ_OK);
}
#endif

int main(void) {
    RUN_BOTH(the_clock_cancels_in_time);
    RUN_BOTH(a_free_that_is_refused_ends_the_clock);
    RUN_BOTH(an_event_of_the_free_starts_no_clock);
    RUN_BOTH(a_clock_that_is_in_an_event_ends_too);
    if (HAS_EVENTFDS) {
        RUN_BOTH(the_clock_tells_that_there_is_room);
    }
#ifndef _WIN32
    RUN_BOTH(the_clock_takes_no_signals);
#endif
    return DONE();
}
