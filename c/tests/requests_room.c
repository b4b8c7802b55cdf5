/* Submits of csq_requests.h that wait for room, and batches, by threads. */
#include "../requests/requests.h"
#include "requests_check.h"

#include "eventfds.h"

#include <pthread.h>
#include <sched.h>

/* A submit that waits for room in a thread of its own. */
struct submitter {
    struct csq_requests *requests;
    struct csq_submit how;
    struct csq_irp name;
    uint32_t code;
    uint64_t took; /* milliseconds */
    pthread_t thread;
};

static void *submit_it(void *of) {
    struct submitter *it = of;
    const uint64_t began = csq_requests_now();
    it->code = csq_requests_submit_with(it->requests, &it->how, &it->name);
    it->took = csq_requests_now() - began;
    return NULL;
}

static void start(struct submitter *it, struct csq_requests *requests, int value, uint32_t file) {
    const struct csq_submit how = { number(value), file, 0, LONG_TIME, 0 };
    struct submitter made = { requests, how, { 0, 0 }, 0, 0, 0 };
    memcpy(it, &made, sizeof made);
    IS((unsigned)pthread_create(&it->thread, NULL, submit_it, it), 0);
}

/* It was woken: what it waited for would be found also after the whole time. */
static void end_of(struct submitter *it, uint32_t code) {
    IS((unsigned)pthread_join(it->thread, NULL), 0);
    IS(it->code, code);
    CHECK(it->took < LONG_TIME);
}

/* Until this number of submits sleep for room of a file object, or for an IRP; or of workers or
 * drains. */
static void until_it_waits(struct csq_requests *requests, uint32_t file, uint32_t count) {
    const struct requests_file *of = requests_file(requests, file);
    const uint64_t began = csq_requests_now();
    uint32_t asleep = 0;
    while (asleep < count && csq_requests_now() - began < LONG_TIME) {
        system_lock(&requests->mutex);
        asleep = of->wanting + of->waiting + of->draining;
        system_unlock(&requests->mutex);
        sched_yield();
    }
    CHECK(asleep >= count);
}

/* Two numbers; the first file object may have one listed. */
static struct csq_requests *narrow(uint32_t list, uint32_t first_life) {
    static const uint32_t limits[FILES] = { 1, 2, 2 };
    struct csq_requests *requests = NULL;
    struct csq_size size = size_of(2, FILES, list);
    size.first_life = first_life;
    IS(csq_requests_new(&requests, &size, limits, NULL), CSQ_OK);
    return requests;
}

static void a_submit_waits_for_its_time(uint32_t list) {
    struct csq_requests *requests = narrow(list, 0);
    struct csq_submit how = { number(2), 0, 0, SHORT_TIME, 0 };
    struct csq_irp name = submit(requests, 1, 0, 0);
    struct csq_requests_stats stats = { sizeof stats, 0, 0, 0, 0, 0, { 0 }, 0, 0, 0, 0 };
    const uint64_t began = csq_requests_now();
    IS(csq_requests_submit_with(requests, &how, &name), CSQ_FILE_FULL);
    CHECK(csq_requests_now() - began >= SHORT_TIME - 1);
    IS(csq_requests_read_stats(requests, &stats), CSQ_OK);
    CHECK(stats.waits_for_room >= 1 && stats.waits_for_room <= 4);
    IS(stats.file_full, 1);
    how.milliseconds = CSQ_FOREVER;
    how.file = FILES;
    IS(csq_requests_submit_with(requests, &how, &name), CSQ_UNKNOWN_FILE);
    csq_requests_close(requests);
    how.file = 0;
    IS(csq_requests_submit_with(requests, &how, &name), CSQ_CLOSED);
    IS(csq_requests_free(&requests), CSQ_OK);
}

/* What makes room, and for whom: each row waits for room of file object 0 or for a number, and is
 * woken by one act. */
enum act { REMOVE, CANCEL, COMPLETE, CLEAN_UP, CLOSE };

static void act(struct csq_requests *requests, enum act act, const struct csq_request *taken,
                struct csq_irp listed) {
    struct csq_request request;
    void *value = NULL;
    if (act == REMOVE) {
        IS(csq_requests_next(requests, 0, 0, &request), CSQ_OK);
    } else if (act == CANCEL) {
        IS(csq_requests_cancel(requests, listed, &value), CSQ_OK);
    } else if (act == COMPLETE) {
        IS(csq_requests_complete(requests, taken, 0), CSQ_OK);
    } else if (act == CLEAN_UP) {
        IS(csq_requests_cleanup(requests, 0, 0), CSQ_OK);
    } else {
        csq_requests_close(requests);
    }
}

/* Whatever is listed or taken ends, and the queue is freed. */
static void finish(struct csq_requests *requests, const struct csq_request *taken) {
    struct csq_request request;
    uint32_t code = csq_requests_complete(requests, taken, 0);
    CHECK(code == CSQ_OK || code == CSQ_NOT_HELD);
    for (uint32_t irp = 0; irp < 2; irp++) {
        for (uint32_t life = 0; life < 3; life++) {
            request.name = irp_in(irp, life);
            code = csq_requests_complete(requests, &request, CSQ_STATUS_CANCELLED);
        }
    }
    IS(csq_requests_free(&requests), CSQ_OK);
}

static void each_act_wakes_who_waits_for_room(uint32_t list) {
    static const struct { uint32_t waits_for; enum act act; uint32_t code; } rows[] = {
        { 0, REMOVE, CSQ_OK },           { 0, CANCEL, CSQ_OK },
        { 0, CLEAN_UP, CSQ_FILE_CLOSED }, { 0, CLOSE, CSQ_CLOSED },
        { CSQ_ANY, COMPLETE, CSQ_OK },   { CSQ_ANY, CANCEL, CSQ_OK },
        { CSQ_ANY, CLOSE, CSQ_CLOSED },
    };
    for (size_t at = 0; at < sizeof rows / sizeof *rows; at++) {
        struct csq_requests *requests = narrow(list, 0);
        struct csq_request taken = { irp_in(9, 0), 0, NULL };
        struct submitter submitter;
        struct csq_irp listed;
        if (rows[at].waits_for == CSQ_ANY) {
            submit(requests, 1, 1, 0);
            IS(next(requests, 1, &taken), 1);
        } else {
            taken.name = irp_in(0, 3);
        }
        listed = submit(requests, 2, 0, 0);
        start(&submitter, requests, 3, rows[at].waits_for == CSQ_ANY ? 1 : 0);
        until_it_waits(requests, rows[at].waits_for, 1);
        act(requests, rows[at].act, &taken, listed);
        end_of(&submitter, rows[at].code);
        finish(requests, &taken);
    }
}

/* A cleanup wakes those of its file object that wait for a number, too, whoever else waits for
 * one. */
static void a_cleanup_wakes_who_waits_for_a_number(uint32_t list) {
    struct csq_requests *requests = narrow(list, 0);
    struct csq_request taken[2];
    struct submitter submitters[3];
    for (int at = 0; at < 2; at++) {
        submit(requests, at, 1, 0);
        IS(next(requests, 1, &taken[at]), (uint32_t)at);
    }
    for (uint32_t at = 0; at < 3; at++) {
        start(&submitters[at], requests, 3, at == 1 ? 0 : 2);
        until_it_waits(requests, CSQ_ANY, at + 1);
    }
    IS(csq_requests_cleanup(requests, 0, 0), CSQ_OK);
    end_of(&submitters[1], CSQ_FILE_CLOSED);
    csq_requests_close(requests);
    end_of(&submitters[0], CSQ_CLOSED);
    end_of(&submitters[2], CSQ_CLOSED);
    IS(csq_requests_complete(requests, &taken[0], 0), CSQ_OK);
    finish(requests, &taken[1]);
}

/* Where the list is full, and numbers are free, a removal makes room. */
static void a_removal_wakes_who_waits_for_the_list(uint32_t list) {
    struct csq_requests *requests = NULL;
    struct csq_size size = size_of(3, FILES, list);
    struct submitter submitter;
    struct csq_request taken;
    size.limit = 1;
    IS(csq_requests_new(&requests, &size, NULL, NULL), CSQ_OK);
    submit(requests, 1, 0, 0);
    start(&submitter, requests, 2, 1);
    until_it_waits(requests, CSQ_ANY, 1);
    IS(next(requests, 0, &taken), 1);
    end_of(&submitter, CSQ_OK);
    IS(csq_requests_complete(requests, &taken, 0), CSQ_OK);
    IS(csq_requests_free(&requests), CSQ_OK);
}

/* Once each number is past its last life all who wait are told, one by another. */
static void all_learn_that_the_lives_are_spent(uint32_t list) {
    struct csq_requests *requests = narrow(list, CSQ_LAST_LIFE);
    struct csq_request taken[2];
    struct submitter submitters[3];
    for (int at = 0; at < 2; at++) {
        submit(requests, at, 1, 0);
        IS(next(requests, 1, &taken[at]), (uint32_t)at);
    }
    for (int at = 0; at < 3; at++) {
        start(&submitters[at], requests, 3 + at, (uint32_t)at);
    }
    until_it_waits(requests, CSQ_ANY, 3);
    IS(csq_requests_complete(requests, &taken[0], 0), CSQ_OK);
    IS(csq_requests_complete(requests, &taken[1], 0), CSQ_OK);
    for (int at = 0; at < 3; at++) {
        end_of(&submitters[at], CSQ_LIVES_SPENT);
    }
    IS(csq_requests_free(&requests), CSQ_OK);
}

/* The first that waits for a number is woken, and finds that its file object has no room: the other
 * gets the number. */
static void who_is_woken_and_cannot_use_it_passes_it_on(uint32_t list) {
    struct csq_requests *requests = narrow(list, 0);
    struct submitter submitters[2];
    struct csq_request taken;
    submit(requests, 1, 1, 0);
    IS(next(requests, 1, &taken), 1);
    submit(requests, 2, 0, 0);
    start(&submitters[0], requests, 3, 0);
    until_it_waits(requests, CSQ_ANY, 1);
    start(&submitters[1], requests, 4, 1);
    until_it_waits(requests, CSQ_ANY, 2);
    IS(csq_requests_complete(requests, &taken, 0), CSQ_OK);
    end_of(&submitters[1], CSQ_OK);
    IS(next(requests, 0, &taken), 2);
    IS(csq_requests_complete(requests, &taken, 0), CSQ_OK);
    end_of(&submitters[0], CSQ_OK);
    IS(csq_requests_drain(requests, CSQ_ANY, 0), CSQ_OK);
    IS(csq_requests_free(&requests), CSQ_OK);
}

/* Of two that wait for one file object one is woken, and finds that no number is free: then the
 * other waits for a number too. */
static void who_has_to_wait_elsewhere_wakes_the_next(uint32_t list) {
    struct csq_requests *requests = narrow(list, 0);
    struct submitter submitters[2];
    struct csq_request taken;
    submit(requests, 1, 0, 0);
    start(&submitters[0], requests, 2, 0);
    start(&submitters[1], requests, 3, 0);
    until_it_waits(requests, 0, 2);
    submit(requests, 4, 1, 0);
    IS(next(requests, 0, &taken), 1);
    until_it_waits(requests, CSQ_ANY, 2);
    csq_requests_close(requests);
    end_of(&submitters[0], CSQ_CLOSED);
    end_of(&submitters[1], CSQ_CLOSED);
    IS(csq_requests_complete(requests, &taken, 0), CSQ_OK);
    IS(csq_requests_free(&requests), CSQ_OK);
}

/* Two wait for the same room: one that is woken and finds none sleeps again. Otherwise they would
 * wake each other for ever. */
static void who_is_woken_for_nothing_wakes_nobody(uint32_t list) {
    const struct timespec time = { 0, SHORT_TIME * 1000000 };
    struct csq_requests *requests = narrow(list, 0);
    struct csq_requests_stats stats = { sizeof stats, 0, 0, 0, 0, 0, { 0 }, 0, 0, 0, 0 };
    struct submitter submitters[2];
    submit(requests, 1, 0, 0);
    start(&submitters[0], requests, 2, 0);
    start(&submitters[1], requests, 3, 0);
    until_it_waits(requests, 0, 2);
    system_wake(&requests_file(requests, 0)->room);
    nanosleep(&time, NULL);
    IS(csq_requests_read_stats(requests, &stats), CSQ_OK);
    CHECK(stats.waits_for_room <= 4);
    csq_requests_close(requests);
    end_of(&submitters[0], CSQ_CLOSED);
    end_of(&submitters[1], CSQ_CLOSED);
    IS(csq_requests_free(&requests), CSQ_OK);
}

/* What a submit hands over may go with the value, in an event, before the call returns. */
struct job {
    struct csq_submit how;
    struct csq_irp name;
};

static void *submit_job(void *of) {
    struct submitter *it = of;
    struct job *job = it->how.value;
    it->code = csq_requests_submit_with(it->requests, &job->how, &job->name);
    return NULL;
}

static void free_job(void *context, const struct csq_ending *ending) {
    (void)context;
    free(ending->value);
}

static void is_quiet(struct csq_quiet *quiet) {
    (void)quiet;
}

static void a_submit_may_lie_in_its_value(uint32_t list) {
    const struct csq_requests_events events = { NULL, free_job, NULL };
    struct csq_quiet quiet = { is_quiet, NULL, NULL, 0, 0, NULL };
    struct csq_requests *requests = made(2, list, &events);
    struct submitter submitter = { requests, { calloc(1, sizeof(struct job)), 0, 0, LONG_TIME, 0 },
                                   { 0, 0 }, 0, 0, 0 };
    struct csq_request taken[2];
    *(struct csq_submit *)submitter.how.value = submitter.how;
    for (int at = 0; at < 2; at++) {
        submit(requests, at, 0, 0);
        IS(next(requests, 0, &taken[at]), (uint32_t)at);
    }
    IS((unsigned)pthread_create(&submitter.thread, NULL, submit_job, &submitter), 0);
    until_it_waits(requests, CSQ_ANY, 1);
    IS(csq_requests_drain_start(requests, 0, &quiet), CSQ_HOLDING);
    IS(csq_requests_complete(requests, &taken[0], 0), CSQ_OK);
    end_of(&submitter, CSQ_OK);
    IS(csq_requests_complete(requests, &taken[1], 0), CSQ_OK);
    IS(csq_requests_free(&requests), CSQ_OK);
}

/* ---- Batches that wait ---- */

struct batcher {
    struct csq_requests *requests;
    uint32_t code, count;
    uint64_t took;
    pthread_t thread;
};

static void *submit_two(void *of) {
    struct batcher *it = of;
    const struct csq_submit submits[] = { { number(2), 0, 0, LONG_TIME, 0 },
                                          { number(3), 0, 0, LONG_TIME, 0 } };
    const uint64_t began = csq_requests_now();
    struct csq_irp names[2];
    it->code = csq_requests_submit_many(it->requests, submits, 2, names, &it->count);
    it->took = csq_requests_now() - began;
    return NULL;
}

static void *take_two(void *of) {
    struct batcher *it = of;
    const uint64_t began = csq_requests_now();
    struct csq_request batch[2];
    uint32_t completed = 0;
    it->code = csq_requests_next_many(it->requests, 0, LONG_TIME, batch, 2, &it->count);
    it->took = csq_requests_now() - began;
    IS(csq_requests_complete_many(it->requests, batch, it->count, 0, &completed), CSQ_OK);
    return NULL;
}

static void begin(struct batcher *it, struct csq_requests *requests, void *(*run)(void *)) {
    memset(it, 0, sizeof *it);
    it->requests = requests;
    IS((unsigned)pthread_create(&it->thread, NULL, run, it), 0);
}

/* One of the two was submitted or taken. */
static void one_of_two(const struct batcher *it, uint32_t code) {
    IS((unsigned)pthread_join(it->thread, NULL), 0);
    IS(it->code, code);
    IS(it->count, 1);
    CHECK(it->took < LONG_TIME);
}

static void a_batch_waits_for_its_first_alone(uint32_t list) {
    struct csq_requests *requests = narrow(list, 0);
    struct batcher batcher;
    struct csq_irp name;
    void *value = NULL;
    name = submit(requests, 1, 0, 0);
    begin(&batcher, requests, submit_two);
    until_it_waits(requests, 0, 1);
    IS(csq_requests_cancel(requests, name, &value), CSQ_OK);
    one_of_two(&batcher, CSQ_FILE_FULL);
    IS(csq_requests_drain(requests, 0, 0), CSQ_OK);
    begin(&batcher, requests, take_two);
    until_it_waits(requests, 0, 1);
    submit(requests, 4, 0, 0);
    one_of_two(&batcher, CSQ_OK);
    IS(csq_requests_free(&requests), CSQ_OK);
}

/* ---- What is to be done before a sleep ---- */

static void *drain_first(void *of) {
    struct batcher *it = of;
    it->code = csq_requests_drain(it->requests, 0, LONG_TIME);
    return NULL;
}

/* A drain is woken, ends what was put back, and sleeps again for what is taken: that there is room
 * is told before. */
static void a_drain_that_sleeps_again_tells_before(uint32_t list) {
    struct csq_requests *requests = made(2, list, NULL);
    struct csq_request taken[2];
    struct csq_irp name = { 0, 0 };
    struct batcher drain;
    int room = -1;
    for (int at = 0; at < 2; at++) {
        submit(requests, at, 0, 0);
        IS(next(requests, 0, &taken[at]), (uint32_t)at);
    }
    IS(csq_requests_room_fd(requests, CSQ_ANY, &room), CSQ_OK);
    IS(csq_requests_submit(requests, number(3), 1, 0, &name), CSQ_FULL);
    begin(&drain, requests, drain_first);
    until_it_waits(requests, 0, 1);
    IS(csq_requests_put_back(requests, &taken[0], 0), CSQ_OK);
    IS(becomes_readable(room, LONG_TIME), 1);
    IS(csq_requests_complete(requests, &taken[1], 0), CSQ_OK);
    IS((unsigned)pthread_join(drain.thread, NULL), 0);
    IS(drain.code, CSQ_OK);
    IS(csq_requests_free(&requests), CSQ_OK);
}

/* ---- Shares ---- */

/* Those that sleep for the same get theirs. The test sets how many there are. */
static void a_batch_leaves_the_others_share(uint32_t list) {
    static const struct { uint32_t listed, asleep, share; } rows[] = {
        { 6, 0, 6 }, { 6, 1, 3 }, { 6, 2, 2 }, { 7, 2, 3 }, { 1, 5, 1 }, { 5, 9, 1 }
    };
    for (size_t at = 0; at < sizeof rows / sizeof *rows; at++) {
        struct csq_requests *requests = made(8, list, NULL);
        struct csq_request batch[8];
        uint32_t taken = 0;
        for (uint32_t turn = 0; turn < rows[at].listed; turn++) {
            submit(requests, 1, 1, 0);
        }
        requests_file(requests, 1)->waiting = rows[at].asleep;
        IS(csq_requests_next_many(requests, 1, 0, batch, 8, &taken), CSQ_OK);
        IS(taken, rows[at].share);
        requests_file(requests, 1)->waiting = 0;
        IS(csq_requests_complete_many(requests, batch, taken, 0, &taken), CSQ_OK);
        IS(csq_requests_free(&requests), CSQ_OK);
    }
}

/* ---- Late writes ---- */

/* A thread that has listed a request writes the eventfd once the mutex is free; others may have
 * taken the request, and found no further one, by then. The next that finds none reads it. Here two
 * writes are late, and the second comes after the first was read. */
static void a_write_that_comes_late_is_read(uint32_t list) {
    struct csq_requests *requests = made(2, list, NULL);
    struct requests_fd *fd = &requests_file(requests, CSQ_ANY)->fds[REQUESTS_LISTED];
    struct csq_request taken;
    int one = -1;
    IS(csq_requests_fd(requests, CSQ_ANY, &one), CSQ_OK);
    requests_lock(requests);
    for (int turn = 0; turn < 2; turn++) {
        requests_raise(requests, fd);
        requests_lower(fd);
    }
    requests->later.write_count = 1;
    requests_unlock(requests);
    for (int turn = 0; turn < 2; turn++) {
        IS(is_readable(one), 1);
        IS(csq_requests_next(requests, CSQ_ANY, 0, &taken), CSQ_NONE);
        IS(is_readable(one), 0);
        if (turn == 0) {
            system_raise_fd(one);
        }
    }
    IS(csq_requests_free(&requests), CSQ_OK);
}

/* If both have come by then, the next that finds none reads both. */
static void late_writes_are_read_at_once(uint32_t list) {
    struct csq_requests *requests = made(2, list, NULL);
    struct requests_fd *fd = &requests_file(requests, CSQ_ANY)->fds[REQUESTS_LISTED];
    struct csq_request taken;
    int one = -1;
    IS(csq_requests_fd(requests, CSQ_ANY, &one), CSQ_OK);
    requests_lock(requests);
    for (int turn = 0; turn < 2; turn++) {
        requests_raise(requests, fd);
        requests_lower(fd);
    }
    requests_unlock(requests);
    IS(is_readable(one), 1);
    IS(csq_requests_next(requests, CSQ_ANY, 0, &taken), CSQ_NONE);
    IS(is_readable(one), 0);
    IS(csq_requests_free(&requests), CSQ_OK);
}

int main(void) {
    if (HAS_EVENTFDS) {
        RUN_BOTH(a_write_that_comes_late_is_read);
        RUN_BOTH(late_writes_are_read_at_once);
    }
    RUN_BOTH(a_submit_waits_for_its_time);
    RUN_BOTH(each_act_wakes_who_waits_for_room);
    RUN_BOTH(a_cleanup_wakes_who_waits_for_a_number);
    RUN_BOTH(a_removal_wakes_who_waits_for_the_list);
    RUN_BOTH(all_learn_that_the_lives_are_spent);
    RUN_BOTH(who_is_woken_and_cannot_use_it_passes_it_on);
    RUN_BOTH(who_has_to_wait_elsewhere_wakes_the_next);
    RUN_BOTH(who_is_woken_for_nothing_wakes_nobody);
    RUN_BOTH(a_submit_may_lie_in_its_value);
    RUN_BOTH(a_batch_waits_for_its_first_alone);
    if (HAS_EVENTFDS) {
        RUN_BOTH(a_drain_that_sleeps_again_tells_before);
    }
    RUN_BOTH(a_batch_leaves_the_others_share);
    return DONE();
}
