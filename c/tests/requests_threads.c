/* The calls of csq_requests.h by threads that wait, cancel, put back and drain. The argument is the
 * number of requests of each submitter. */
#include "../requests/requests.h"
#include "requests_check.h"

#include <pthread.h>
#include <sched.h>
#include <stdatomic.h>

/* A worker that waits for one request of a file object, or drains it, and what it got. */
struct worker {
    struct csq_requests *requests;
    uint32_t file, code, value;
    uint32_t cleans_up; /* 1 if it closes the file object before */
    uint32_t ended;     /* read and written under the mutex */
    pthread_t thread;
};

static long milliseconds_since(struct timespec start) {
    struct timespec now;
    clock_gettime(CLOCK_MONOTONIC, &now);
    return (now.tv_sec - start.tv_sec) * 1000 + (now.tv_nsec - start.tv_nsec) / 1000000;
}

/* It is woken: what came would be found also after the whole time. */
static void *wait_for_one(void *of) {
    struct worker *worker = of;
    struct csq_request taken;
    struct timespec start;
    uint32_t code;
    clock_gettime(CLOCK_MONOTONIC, &start);
    code = csq_requests_next(worker->requests, worker->file, LONG_TIME, &taken);
    if (code == CSQ_OK) {
        worker->value = number_of(taken.value);
        code = csq_requests_complete(worker->requests, &taken, 0);
    }
    CHECK(milliseconds_since(start) < LONG_TIME);
    worker->code = code;
    return NULL;
}

static void start(struct worker *worker, struct csq_requests *requests, uint32_t file) {
    memset(worker, 0, sizeof *worker);
    worker->requests = requests;
    worker->file = file;
    IS((unsigned)pthread_create(&worker->thread, NULL, wait_for_one, worker), 0);
}

static void end_of(struct worker *worker, uint32_t code, uint32_t value) {
    IS((unsigned)pthread_join(worker->thread, NULL), 0);
    IS(worker->code, code);
    IS(worker->value, value);
}

/* Time for another thread to wait. What is tested holds whether or not it does by then. */
static void rest(void) {
    struct timespec time = { 0, SHORT_TIME * 1000000 };
    nanosleep(&time, NULL);
}

/* Until so many workers and drains wait for a file object, or for any. */
static void until_it_waits(struct csq_requests *requests, uint32_t file, uint32_t count) {
    const struct requests_file *of = requests_file(requests, file);
    struct timespec start;
    uint32_t waiting = 0;
    clock_gettime(CLOCK_MONOTONIC, &start);
    while (waiting < count && milliseconds_since(start) < LONG_TIME) {
        system_lock(&requests->mutex);
        waiting = of->waiting + of->draining;
        system_unlock(&requests->mutex);
        sched_yield();
    }
    CHECK(waiting >= count);
}

static void a_submit_wakes_one_who_waits_for_it(uint32_t list) {
    struct csq_requests *requests = made(4, list, NULL);
    struct csq_request taken;
    struct worker workers[3];
    struct timespec begin;
    clock_gettime(CLOCK_MONOTONIC, &begin);
    IS(csq_requests_next(requests, CSQ_ANY, SHORT_TIME, &taken), CSQ_NONE);
    CHECK(milliseconds_since(begin) >= SHORT_TIME - 1);
    for (uint32_t file = 0; file < 3; file++) {
        start(&workers[file], requests, file);
    }
    rest();
    submit(requests, 2, 2, 0);
    end_of(&workers[2], CSQ_OK, 2);
    submit(requests, 7, 0, 0);
    end_of(&workers[0], CSQ_OK, 7);
    start(&workers[0], requests, CSQ_ANY);
    rest();
    submit(requests, 8, 2, 0);
    end_of(&workers[0], CSQ_OK, 8);
    start(&workers[0], requests, CSQ_ANY);
    start(&workers[2], requests, 1);
    until_it_waits(requests, CSQ_ANY, 1);
    until_it_waits(requests, 1, 2);
    csq_requests_close(requests);
    end_of(&workers[0], CSQ_CLOSED, 0);
    end_of(&workers[1], CSQ_CLOSED, 0);
    end_of(&workers[2], CSQ_CLOSED, 0);
    csq_requests_close(requests);
    IS(csq_requests_submit(requests, number(1), 0, 0, &taken.name), CSQ_CLOSED);
    IS(csq_requests_submit(requests, number(1), CSQ_ANY, 0, &taken.name), CSQ_UNKNOWN_FILE);
    IS(csq_requests_next(requests, CSQ_ANY, CSQ_FOREVER, &taken), CSQ_CLOSED);
    IS(csq_requests_free(&requests), CSQ_OK);
}

/* Of two that are listed before anybody has woken, one is for who waits for their file object, and
 * one for who waits for any. */
static void each_submit_wakes_another_one(uint32_t list) {
    struct csq_requests *requests = made(4, list, NULL);
    struct worker workers[2];
    struct csq_submit submits[] = { { number(1), 1, 0, 0, 0 }, { number(2), 1, 0, 0, 0 } };
    struct csq_irp names[2];
    uint32_t submitted = 0;
    start(&workers[0], requests, CSQ_ANY);
    start(&workers[1], requests, 1);
    until_it_waits(requests, CSQ_ANY, 1);
    until_it_waits(requests, 1, 1);
    IS(csq_requests_submit_many(requests, submits, 2, names, &submitted), CSQ_OK);
    for (int at = 0; at < 2; at++) {
        IS((unsigned)pthread_join(workers[at].thread, NULL), 0);
        IS(workers[at].code, CSQ_OK);
    }
    IS(workers[0].value + workers[1].value, 3);
    IS(csq_requests_free(&requests), CSQ_OK);
}

/* For the one file object that it is of, and for any. */
static void a_put_back_wakes_one_who_waits_for_it(uint32_t list) {
    struct csq_requests *requests = made(4, list, NULL);
    struct csq_request taken;
    struct worker worker;
    for (int turn = 0; turn < 2; turn++) {
        submit(requests, turn, 1, 0);
        IS(next(requests, 1, &taken), (uint32_t)turn);
        start(&worker, requests, turn ? CSQ_ANY : 1);
        until_it_waits(requests, turn ? CSQ_ANY : 1, 1);
        IS(csq_requests_put_back(requests, &taken, 0), CSQ_OK);
        end_of(&worker, CSQ_OK, (uint32_t)turn);
    }
    IS(csq_requests_free(&requests), CSQ_OK);
}

static void *drain_it(void *of) {
    struct worker *worker = of;
    struct timespec start;
    clock_gettime(CLOCK_MONOTONIC, &start);
    worker->code = (worker->cleans_up ? csq_requests_cleanup : csq_requests_drain)(
        worker->requests, worker->file, LONG_TIME);
    CHECK(milliseconds_since(start) < LONG_TIME);
    worker->value = under_way(worker->requests, worker->file);
    return NULL;
}

/* Two drains and a cleanup at once: the end of the one request that is taken wakes all of them. */
static void each_of_several_drains_is_woken(uint32_t list) {
    struct csq_requests *requests = made(2, list, NULL);
    struct worker drains[] = { { requests, 0, 0, 0, 0, 0, 0 }, { requests, CSQ_ANY, 0, 0, 0, 0, 0 },
                               { requests, 0, 0, 0, 1, 0, 0 } };
    struct csq_request taken;
    submit(requests, 1, 0, 0);
    IS(next(requests, 0, &taken), 1);
    for (int at = 0; at < 3; at++) {
        IS((unsigned)pthread_create(&drains[at].thread, NULL, drain_it, &drains[at]), 0);
    }
    until_it_waits(requests, 0, 2);
    until_it_waits(requests, CSQ_ANY, 1);
    IS(csq_requests_put_back(requests, &taken, 0), CSQ_FILE_CLOSED);
    IS(csq_requests_complete(requests, &taken, 0), CSQ_OK);
    for (int at = 0; at < 3; at++) {
        end_of(&drains[at], CSQ_OK, 0);
    }
    IS(csq_requests_free(&requests), CSQ_OK);
}

static void a_drain_waits_after_a_close_too(uint32_t list) {
    struct csq_requests *requests = made(2, list, NULL);
    struct worker drain = { requests, 0, 0, 0, 0, 0, 0 };
    struct csq_request taken;
    submit(requests, 1, 0, 0);
    IS(next(requests, 0, &taken), 1);
    csq_requests_close(requests);
    IS((unsigned)pthread_create(&drain.thread, NULL, drain_it, &drain), 0);
    until_it_waits(requests, 0, 1);
    IS(csq_requests_complete(requests, &taken, 0), CSQ_OK);
    end_of(&drain, CSQ_OK, 0);
    IS(csq_requests_free(&requests), CSQ_OK);
}

/* Two requests are taken: one is put back and one completed, in this order or in the other. The
 * drain is of their file object, or of any. */
static void drain_what_is_taken(uint32_t list, int put_back_first, uint32_t file) {
    struct report report;
    struct csq_requests *requests = reported(4, list, &report);
    struct csq_request taken[2];
    struct worker drain = { requests, file, 0, 0, 0, 0, 0 };
    for (int at = 0; at < 2; at++) {
        submit(requests, at, 0, 0);
        IS(next(requests, 0, &taken[at]), (uint32_t)at);
    }
    IS((unsigned)pthread_create(&drain.thread, NULL, drain_it, &drain), 0);
    for (int turn = 0; turn < 2; turn++) {
        rest();
        IS(turn == !put_back_first ? csq_requests_put_back(requests, &taken[0], 0)
                                   : csq_requests_complete(requests, &taken[1], 0), CSQ_OK);
    }
    end_of(&drain, CSQ_OK, 0);
    IS(report.count, 2);
    IS(report.events[0], 0);
    IS(csq_requests_free(&requests), CSQ_OK);
}

static void a_drain_waits_for_what_is_taken_and_takes_what_is_put_back(uint32_t list) {
    drain_what_is_taken(list, 1, 0);
    drain_what_is_taken(list, 0, 0);
    drain_what_is_taken(list, 0, CSQ_ANY);
}

/* A worker's answer, which comes after its put-back was refused, comes before the end of the
 * drain. */
static atomic_uint answered;

static void *drain_until_answered(void *of) {
    drain_it(of);
    CHECK(answered);
    return NULL;
}

static void a_drain_waits_for_what_a_cancel_has_named(uint32_t list) {
    struct csq_requests *requests = made(2, list, NULL);
    struct csq_irp name = submit(requests, 1, 0, 0);
    struct csq_request taken;
    struct worker drain = { requests, 0, 0, 0, 0, 0, 0 };
    void *value = NULL;
    answered = 0;
    IS(next(requests, 0, &taken), 1);
    IS((unsigned)pthread_create(&drain.thread, NULL, drain_until_answered, &drain), 0);
    IS(csq_requests_cancel(requests, name, &value), CSQ_NONE);
    IS(csq_requests_put_back(requests, &taken, 0), CSQ_CANCELLED);
    rest();
    answered = 1;
    IS(csq_requests_complete(requests, &taken, CSQ_STATUS_CANCELLED), CSQ_OK);
    end_of(&drain, CSQ_OK, 0);
    IS(csq_requests_free(&requests), CSQ_OK);
}

/* A worker that completes by mistake what it put back, while another thread is ending it. */
struct late {
    struct csq_requests *requests;
    struct csq_request request;
    atomic_uint is_ending, came;
};

static void until_it_is_set(const atomic_uint *flag) {
    struct timespec start;
    clock_gettime(CLOCK_MONOTONIC, &start);
    while (!atomic_load(flag) && milliseconds_since(start) < LONG_TIME) {
        sched_yield();
    }
    CHECK(atomic_load(flag));
}

static void let_it_come(void *context, const struct csq_ending *ending) {
    struct late *late = context;
    (void)ending;
    late->is_ending = 1;
    until_it_is_set(&late->came);
}

static void *come_late(void *of) {
    struct late *late = of;
    until_it_is_set(&late->is_ending);
    IS(csq_requests_complete(late->requests, &late->request, CSQ_STATUS_CANCELLED), CSQ_NOT_HELD);
    IS(csq_requests_put_back(late->requests, &late->request, 1), CSQ_NOT_HELD);
    late->came = 1;
    return NULL;
}

static void who_comes_late_spoils_nothing(uint32_t list) {
    struct late late;
    struct csq_requests_events events = { let_it_come, NULL, &late };
    struct csq_requests *requests = late.requests = made(2, list, &events);
    pthread_t thread;
    late.is_ending = late.came = 0;
    submit(requests, 1, 0, 0);
    IS(next(requests, 0, &late.request), 1);
    IS(csq_requests_put_back(requests, &late.request, 0), CSQ_OK);
    IS((unsigned)pthread_create(&thread, NULL, come_late, &late), 0);
    IS(csq_requests_drain(requests, 0, 0), CSQ_OK);
    IS((unsigned)pthread_join(thread, NULL), 0);
    IS(csq_requests_complete(requests, &late.request, CSQ_STATUS_CANCELLED), CSQ_NOT_HELD);
    IS(under_way(requests, CSQ_ANY), 0);
    IS(csq_requests_drain(requests, CSQ_ANY, 0), CSQ_OK);
    IS(csq_requests_free(&requests), CSQ_OK);
}

/* ---- Whose time is over ---- */

static void say_end(struct worker *worker, uint32_t code) {
    system_lock(&worker->requests->mutex);
    worker->code = code;
    worker->ended = 1;
    system_unlock(&worker->requests->mutex);
}

static void *wait_a_little(void *of) {
    struct worker *worker = of;
    struct csq_request taken;
    uint32_t code = csq_requests_next(worker->requests, 0, SHORT_TIME, &taken);
    worker->value = code == CSQ_OK ? number_of(taken.value) : 0;
    say_end(worker, code);
    return NULL;
}

static void *drain_a_little(void *of) {
    struct worker *worker = of;
    say_end(worker, csq_requests_drain(worker->requests, 0, SHORT_TIME));
    return NULL;
}

static void begin(struct worker *worker, struct csq_requests *requests, void *(*routine)(void *)) {
    memset(worker, 0, sizeof *worker);
    worker->requests = requests;
    IS((unsigned)pthread_create(&worker->thread, NULL, routine, worker), 0);
}

/* Starts one, and takes the mutex while it waits, until its time is over. One that has ended before
 * is started again. */
static void hold_up(struct worker *worker, struct csq_requests *requests,
                    void *(*routine)(void *)) {
    const struct requests_file *of = requests_file(requests, 0);
    begin(worker, requests, routine);
    system_lock(&requests->mutex);
    while (of->waiting + of->draining == 0 && !check_failed) {
        uint32_t ended = worker->ended;
        system_unlock(&requests->mutex);
        if (ended) {
            IS((unsigned)pthread_join(worker->thread, NULL), 0);
            begin(worker, requests, routine);
        }
        sched_yield();
        system_lock(&requests->mutex);
    }
    rest();
    rest();
}

/* What comes in the meantime isn't missed. */
static void who_runs_out_of_time_looks_once_more(uint32_t list) {
    struct csq_requests *requests = made(2, list, NULL);
    struct worker worker;
    struct csq_irp name = { 0, 0 };
    struct csq_ended ended;
    hold_up(&worker, requests, wait_a_little);
    IS(csq_ledger_begin(&requests->ledger, 0, 0, CSQ_NEVER, &name), CSQ_OK);
    requests->values[name.irp] = number(5);
    system_unlock(&requests->mutex);
    end_of(&worker, CSQ_OK, 5);
    hold_up(&worker, requests, drain_a_little);
    IS(csq_ledger_finish(&requests->ledger, name, 0, &ended), CSQ_OK);
    system_unlock(&requests->mutex);
    end_of(&worker, CSQ_OK, 0);
    IS(csq_requests_free(&requests), CSQ_OK);
}

/* ---- Each value comes out once, whoever gets it ---- */

enum { SUBMITTERS = 3, WORKERS = 4, MOST = 20000 };

static unsigned long turns = 20000;
static atomic_uint out[SUBMITTERS * MOST];
static atomic_ulong served, cancelled, drained, faults;
/* A value, with its own name in it, which whoever gets the value finds. */
static struct value { struct csq_irp name; unsigned long at; } values[SUBMITTERS * MOST];

static void fault_unless(int holds) { faults += !holds; }

static void comes_out(struct csq_irp name, const struct value *value, atomic_ulong *by) {
    fault_unless(value->name.irp == name.irp && value->name.life == name.life);
    fault_unless(atomic_fetch_add(&out[value->at], 1) == 0);
    ++*by;
}

/* A request that has ended, or is being ended, can't be completed or put back by its name. */
static void comes_late(struct csq_requests *requests, struct csq_irp name) {
    struct csq_request late = { name, 0, NULL };
    fault_unless(csq_requests_complete(requests, &late, CSQ_STATUS_CANCELLED) == CSQ_NOT_HELD);
    fault_unless(csq_requests_put_back(requests, &late, 0) == CSQ_NOT_HELD);
}

static void count_drained(void *context, const struct csq_ending *ending) {
    comes_out(ending->name, ending->value, &drained);
    comes_late(*(struct csq_requests **)context, ending->name);
}

/* Of a cancel too: its value comes by the event, and is the same that the call stores. */
static void cancel_one(struct csq_requests *requests, struct csq_irp name) {
    void *value = NULL;
    uint32_t code = csq_requests_cancel(requests, name, &value);
    fault_unless(code == CSQ_OK ? atomic_load(&out[((struct value *)value)->at]) == 1
                                : code == CSQ_NONE || code == CSQ_STALE);
    cancelled += code == CSQ_OK;
}

/* A submitter is a connection: it submits, cancels some, and now and then drains all of its own. */
static void *submit_all(void *of) {
    struct worker *worker = of;
    struct value *mine = &values[worker->file * turns];
    for (unsigned long turn = 0; turn < turns; turn++) {
        uint32_t code;
        mine[turn].at = worker->file * turns + turn;
        while ((code = csq_requests_submit(worker->requests, &mine[turn], worker->file,
                                           turn % 5 == 0, &mine[turn].name)) == CSQ_FULL) {
            sched_yield();
        }
        fault_unless(code == CSQ_OK);
        if (turn % 3 == 0) {
            cancel_one(worker->requests, mine[turn < 3 ? turn : turn - 3].name);
        }
        if (turn % 128 == 127) {
            fault_unless(csq_requests_drain(worker->requests, worker->file, LONG_TIME) == CSQ_OK);
            fault_unless(under_way(worker->requests, worker->file) == 0);
        }
    }
    return NULL;
}

static void *work(void *of) {
    struct worker *worker = of;
    struct csq_request taken;
    unsigned long turn = 0;
    while (csq_requests_next(worker->requests, worker->file, CSQ_FOREVER, &taken) == CSQ_OK) {
        uint32_t code = turn++ % 4 == 0 ? csq_requests_put_back(worker->requests, &taken, 0)
                                        : (uint32_t)CSQ_NOT_HELD;
        if (code != CSQ_OK) {
            comes_out(taken.name, taken.value, &served);
            fault_unless(csq_requests_complete(worker->requests, &taken,
                                               code == CSQ_CANCELLED ? CSQ_STATUS_CANCELLED : 0) ==
                         CSQ_OK);
            comes_late(worker->requests, taken.name);
        }
    }
    return NULL;
}

static void each_value_comes_out_once(uint32_t list) {
    struct csq_requests *requests = NULL;
    struct csq_requests_events events = { count_drained, NULL, &requests };
    struct worker workers[SUBMITTERS + WORKERS];
    requests = made(16, list, &events);
    memset(out, 0, sizeof out);
    served = cancelled = drained = faults = 0;
    for (uint32_t at = 0; at < SUBMITTERS + WORKERS; at++) {
        struct worker worker = { requests, at, 0, 0, 0, 0, 0 };
        workers[at] = worker;
        if (at >= SUBMITTERS) {
            /* One for each file object, and one for any. */
            workers[at].file = at < SUBMITTERS + WORKERS - 1 ? at - SUBMITTERS : CSQ_ANY;
        }
        IS((unsigned)pthread_create(&workers[at].thread, NULL, at < SUBMITTERS ? submit_all : work,
                                    &workers[at]),
           0);
    }
    for (uint32_t at = 0; at < SUBMITTERS + WORKERS; at++) {
        if (at == SUBMITTERS) {
            csq_requests_close(requests);
        }
        IS((unsigned)pthread_join(workers[at].thread, NULL), 0);
    }
    IS(csq_requests_free(&requests), CSQ_OK);
    IS(faults, 0);
    IS(served + drained, SUBMITTERS * turns);
    for (unsigned long at = 0; at < SUBMITTERS * turns; at++) {
        IS(out[at], 1);
    }
    snprintf(check_note, sizeof check_note, " (%lu served, %lu cancelled, %lu drained)",
             atomic_load(&served), atomic_load(&cancelled),
             atomic_load(&drained) - atomic_load(&cancelled));
}

int main(int count, char **words) {
    if (count > 1) {
        turns = strtoul(words[1], NULL, 10);
    }
    RUN_BOTH(a_submit_wakes_one_who_waits_for_it);
    RUN_BOTH(each_submit_wakes_another_one);
    RUN_BOTH(a_put_back_wakes_one_who_waits_for_it);
    RUN_BOTH(a_drain_waits_for_what_is_taken_and_takes_what_is_put_back);
    RUN_BOTH(a_drain_waits_for_what_a_cancel_has_named);
    RUN_BOTH(a_drain_waits_after_a_close_too);
    RUN_BOTH(who_comes_late_spoils_nothing);
    RUN_BOTH(each_of_several_drains_is_woken);
    RUN_BOTH(who_runs_out_of_time_looks_once_more);
    RUN_BOTH(each_value_comes_out_once);
    return DONE();
}
