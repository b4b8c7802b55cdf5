/* The calls of csq_requests.h for batches, deadlines, loops and those who count, in one thread. */
#include "requests_check.h"

#include "eventfds.h"

#include <stddef.h>
#ifndef _WIN32
#include <fcntl.h>
#include <sys/epoll.h>
#include <unistd.h>
#endif

static struct csq_submit how(int value, uint32_t file, uint64_t due) {
    struct csq_submit made = { number(value), file, 0, 0, due };
    return made;
}

static uint32_t why_of(struct csq_requests *requests, struct csq_irp name) {
    struct csq_request request = { name, 0, NULL };
    return csq_requests_is_cancelled(requests, &request);
}

/* ---- Batches ---- */

static void a_batch_stops_at_the_first_refusal(uint32_t list) {
    struct csq_requests *requests = made(4, list, NULL);
    struct csq_submit submits[] = { how(1, 0, 0), how(2, 1, 0), how(3, FILES, 0), how(4, 0, 0) };
    struct csq_request batch[4];
    struct csq_irp names[4] = { { 0, 0 }, { 0, 0 }, { UNWRITTEN, 0 }, { UNWRITTEN, 0 } };
    uint32_t count = UNWRITTEN;
    IS(csq_requests_submit_many(requests, submits, 4, names, &count), CSQ_UNKNOWN_FILE);
    IS(count, 2);
    IS(names[2].irp, UNWRITTEN);
    IS(csq_requests_submit_many(requests, submits, 0, names, &count), CSQ_OK);
    IS(count, 0);
    IS(csq_requests_next_many(requests, FILES, 0, batch, 0, &count), CSQ_UNKNOWN_FILE);
    IS(csq_requests_next_many(requests, CSQ_ANY, 0, batch, 0, &count), CSQ_BAD_SIZE);
    IS(csq_requests_next_many(requests, CSQ_ANY, 0, batch, 4, &count), CSQ_OK);
    IS(count, 2);
    IS(number_of(batch[0].value) + 10 * number_of(batch[1].value), 21);
    IS(csq_requests_next_many(requests, CSQ_ANY, 0, batch, 4, &count), CSQ_NONE);
    IS(count, 0);
    batch[2] = batch[0];
    IS(csq_requests_complete_many(requests, batch, 3, CSQ_STATUS_SUCCESS, &count), CSQ_NOT_HELD);
    IS(count, 2);
    IS(csq_requests_complete_many(requests, batch, 0, CSQ_STATUS_SUCCESS, &count), CSQ_OK);
    csq_requests_close(requests);
    IS(csq_requests_next_many(requests, CSQ_ANY, CSQ_FOREVER, batch, 4, &count), CSQ_CLOSED);
    IS(csq_requests_free(&requests), CSQ_OK);
}

/* ---- Deadlines ---- */

static void a_deadline_ends_what_is_listed_and_names_what_is_taken(uint32_t list) {
    struct report report;
    struct csq_requests *requests = reported(4, list, &report);
    struct csq_irp second = submit_until(requests, 2, 0, 20);
    struct csq_request taken;
    submit_until(requests, 1, 0, 10);
    submit(requests, 3, 1, 0);
    IS(csq_requests_tick(requests, 9), 1);
    IS(next(requests, 0, &taken), 2);
    IS(csq_requests_tick(requests, 10), 10);
    IS(report.count, 2);
    IS(number_of(report.last.value), 1);
    it_ended(&report, CSQ_WHY_DUE, NULL);
    IS(why_of(requests, second), CSQ_WHY_NONE);
    IS(csq_requests_tick(requests, 1000), CSQ_FOREVER);
    IS(why_of(requests, second), CSQ_WHY_DUE);
    IS(csq_requests_put_back(requests, &taken, 0), CSQ_CANCELLED);
    IS(csq_requests_complete(requests, &taken, CSQ_STATUS_CANCELLED), CSQ_OK);
    IS(report.count, 2);
    /* What was named first stays, and a deadline that is over comes with the next call, whose time
     * may be before that of an earlier one. */
    second = submit_until(requests, 4, 0, 2000);
    IS(next(requests, 0, &taken), 4);
    IS(csq_requests_cancel(requests, second, &taken.value), CSQ_NONE);
    IS(csq_requests_tick(requests, 3000), CSQ_FOREVER);
    IS(why_of(requests, second), CSQ_WHY_CANCEL);
    submit_until(requests, 5, 2, 2999);
    IS(csq_requests_tick(requests, 0), CSQ_FOREVER);
    IS(number_of(report.last.value), 5);
    submit_until(requests, 6, 2, UINT64_MAX - 1);
    IS(csq_requests_tick(requests, 0), CSQ_FOREVER - 1);
    IS(csq_requests_complete(requests, &taken, 0), CSQ_OK);
    IS(csq_requests_free(&requests), CSQ_OK);
    it_ended(&report, CSQ_WHY_FREE, NULL);
}

static void a_put_back_keeps_the_deadline(uint32_t list) {
    struct csq_requests *requests = made(2, list, NULL);
    struct csq_irp name = submit_until(requests, 1, 0, 10);
    struct csq_request taken;
    void *value = NULL;
    IS(next(requests, 0, &taken), 1);
    IS(csq_requests_put_back(requests, &taken, 0), CSQ_OK);
    IS(csq_requests_tick(requests, 3), 7);
    IS(csq_requests_tick(requests, 10), CSQ_FOREVER);
    IS(csq_requests_cancel(requests, name, &value), CSQ_STALE);
    IS(csq_requests_free(&requests), CSQ_OK);
}

/* ---- Words, and who is told ---- */

static void the_callers_word_comes_to_the_events(uint32_t list) {
    struct report report;
    struct csq_requests *requests = reported(4, list, &report);
    char words[3];
    void *value = NULL;
    struct csq_irp name = submit(requests, 1, 0, 0);
    IS(csq_requests_cancel_with(requests, name, &words[0], &value), CSQ_OK);
    it_ended(&report, CSQ_WHY_CANCEL, &words[0]);
    IS(number_of(value), 1);
    submit(requests, 2, 1, 0);
    IS(csq_requests_drain_with(requests, 1, 0, &words[1]), CSQ_OK);
    it_ended(&report, CSQ_WHY_DRAIN, &words[1]);
    submit(requests, 3, 2, 0);
    IS(csq_requests_cleanup_with(requests, 2, 0, &words[2]), CSQ_OK);
    it_ended(&report, CSQ_WHY_CLEANUP, &words[2]);
    IS(csq_requests_cleanup_with(requests, CSQ_ANY, 0, &words[2]), CSQ_UNKNOWN_FILE);
    IS(report.count, 6);
    IS(csq_requests_free(&requests), CSQ_OK);
}

/* A connection that goes: who is told, and how often. */
struct leaving {
    struct csq_quiet quiet;
    uint32_t told;
};

static void tell(struct csq_quiet *quiet) {
    struct leaving *leaving = quiet->context;
    leaving->told++;
}

static struct leaving left(void *word) {
    struct leaving made = { { tell, NULL, word, 0, 0, NULL }, 0 };
    return made;
}

static uint32_t leave(struct csq_requests *requests, uint32_t file, struct leaving *leaving) {
    leaving->quiet.context = leaving;
    return csq_requests_drain_start(requests, file, &leaving->quiet);
}

static void a_drain_that_nobody_waits_for_tells_once(uint32_t list) {
    struct report report;
    struct csq_requests *requests = reported(4, list, &report);
    struct leaving one = left(&report), other = left(&one), all = left(&all);
    struct csq_request taken[2];
    submit(requests, 1, 0, 0);
    submit(requests, 2, 0, 0);
    submit(requests, 3, 0, 0);
    IS(next(requests, 0, &taken[0]), 1);
    IS(next(requests, 0, &taken[1]), 2);
    IS(leave(requests, 1, &other), CSQ_OK);
    IS(leave(requests, FILES, &other), CSQ_UNKNOWN_FILE);
    IS(leave(requests, CSQ_ANY, &all), CSQ_HOLDING);
    it_ended(&report, CSQ_WHY_DRAIN, &all);
    IS(leave(requests, 0, &one), CSQ_HOLDING);
    IS(leave(requests, 0, &other), CSQ_HOLDING);
    /* What comes meanwhile ends at once, with the word of the last for its file object. */
    submit(requests, 4, 0, 0);
    it_ended(&report, CSQ_WHY_DRAIN, &one);
    submit(requests, 5, 1, 0);
    it_ended(&report, CSQ_WHY_DRAIN, &all);
    IS(csq_requests_put_back(requests, &taken[0], 0), CSQ_OK);
    IS(number_of(report.last.value), 1);
    IS(under_way(requests, CSQ_ANY), 1);
    IS(one.told + other.told + all.told, 0);
    IS(csq_requests_complete(requests, &taken[1], 0), CSQ_OK);
    IS(one.told, 1);
    IS(other.told, 1);
    IS(all.told, 1);
    /* The next one is listed again. */
    submit(requests, 6, 0, 0);
    IS(next(requests, 0, &taken[0]), 6);
    IS(csq_requests_cleanup_start(requests, 0, &one.quiet), CSQ_HOLDING);
    IS(csq_requests_put_back(requests, &taken[0], 0), CSQ_FILE_CLOSED);
    IS(csq_requests_complete(requests, &taken[0], 0), CSQ_OK);
    IS(one.told, 2);
    IS(one.quiet.file, 0);
    IS(one.quiet.why, CSQ_WHY_CLEANUP);
    IS(csq_requests_cleanup_start(requests, 0, &one.quiet), CSQ_OK);
    IS(csq_requests_cleanup_start(requests, CSQ_ANY, &one.quiet), CSQ_UNKNOWN_FILE);
    IS(csq_requests_free(&requests), CSQ_OK);
    IS(one.told + other.told + all.told, 4);
}

/* A drain that is started in an event, and how often it was told before that event's end. */
static struct csq_requests *inside;
static struct leaving started;
static uint32_t code_inside, told_inside;

static void start_inside(void *context, const struct csq_ending *ending) {
    (void)context;
    code_inside = leave(inside, ending->file, &started);
    told_inside += started.told;
}

static void nobody_is_told_before_the_last_event_returns(uint32_t list) {
    static const struct csq_requests_events rows[] = { { start_inside, NULL, NULL },
                                                       { NULL, start_inside, NULL } };
    for (size_t at = 0; at < sizeof rows / sizeof *rows; at++) {
        started = left(NULL);
        told_inside = 0;
        inside = made(2, list, &rows[at]);
        submit(inside, 1, 0, 0);
        IS(csq_requests_drain(inside, CSQ_ANY, 0), CSQ_OK);
        IS(code_inside, CSQ_HOLDING);
        IS(told_inside, 0);
        IS(started.told, 1);
        IS(csq_requests_free(&inside), CSQ_OK);
    }
}

/* Once: a further request is taken for its file object, and the next drain has the same memory. */
static void start_again(struct csq_quiet *quiet) {
    struct leaving *leaving = quiet->context;
    struct csq_request taken;
    if (leaving->told++ == 0) {
        submit(inside, 2, 0, 0);
        IS(next(inside, 0, &taken), 2);
        IS(csq_requests_drain_start(inside, 0, quiet), CSQ_HOLDING);
        IS(csq_requests_complete(inside, &taken, 0), CSQ_OK);
    }
}

static void who_is_told_may_start_the_next_drain(uint32_t list) {
    struct csq_request taken;
    started = left(NULL);
    started.quiet.quiet = start_again;
    inside = made(2, list, NULL);
    submit(inside, 1, 0, 0);
    IS(next(inside, 0, &taken), 1);
    IS(leave(inside, 0, &started), CSQ_HOLDING);
    IS(csq_requests_complete(inside, &taken, 0), CSQ_OK);
    IS(started.told, 2);
    IS(csq_requests_free(&inside), CSQ_OK);
}

/* ---- Eventfds ---- */

#ifndef _WIN32
static void an_eventfd_is_neither_inherited_nor_waited_for(uint32_t list) {
    struct csq_requests *requests = made(2, list, NULL);
    int fd = -1;
    IS(csq_requests_fd(requests, 0, &fd), CSQ_OK);
    IS((unsigned)fcntl(fd, F_GETFD) & FD_CLOEXEC, FD_CLOEXEC);
    IS((unsigned)fcntl(fd, F_GETFL) & O_NONBLOCK, O_NONBLOCK);
    IS(csq_requests_free(&requests), CSQ_OK);
}

/* The edges of an eventfd since the last look. */
static uint32_t edges_of(int loop) {
    struct epoll_event event;
    return (uint32_t)epoll_wait(loop, &event, 1, 0);
}

static void an_edge_comes_again_once_none_was_found(uint32_t list) {
    struct csq_requests *requests = made(4, list, NULL);
    struct epoll_event event = { EPOLLIN | EPOLLET, { NULL } };
    struct csq_request taken;
    int fd = -1, loop = epoll_create1(EPOLL_CLOEXEC);
    IS(csq_requests_fd(requests, CSQ_ANY, &fd), CSQ_OK);
    IS((unsigned)epoll_ctl(loop, EPOLL_CTL_ADD, fd, &event), 0);
    for (int turn = 0; turn < 2; turn++) {
        submit(requests, 1, 0, 0);
        IS(edges_of(loop), 1);
        submit(requests, 2, 1, 0);
        IS(edges_of(loop), 0);
        IS(csq_requests_drain(requests, CSQ_ANY, 0), CSQ_OK);
        submit(requests, 3, 0, 0);
        IS(edges_of(loop), 0);
        IS(csq_requests_drain(requests, CSQ_ANY, 0), CSQ_OK);
        IS(next(requests, CSQ_ANY, &taken), CSQ_ANY);
    }
    IS((unsigned)close(loop), 0);
    IS(csq_requests_free(&requests), CSQ_OK);
}

#endif

static uint32_t readable_of(const int *fds, int count) {
    uint32_t readable = 0;
    while (count > 0) {
        readable += is_readable(fds[--count]);
    }
    return readable;
}

/* They are more than the queue keeps to write later. */
static void a_close_makes_each_eventfd_readable(uint32_t list) {
    struct csq_requests *requests = made(1, list, NULL);
    struct csq_irp name = { 0, 0 };
    struct csq_request taken, none;
    int fds[FILES + 2];
    submit(requests, 1, 0, 0);
    IS(next(requests, 0, &taken), 1);
    for (uint32_t file = 0; file <= FILES; file++) {
        IS(csq_requests_fd(requests, file < FILES ? file : CSQ_ANY, &fds[file]), CSQ_OK);
        IS(next(requests, file < FILES ? file : CSQ_ANY, &none), CSQ_ANY);
    }
    IS(csq_requests_room_fd(requests, CSQ_ANY, &fds[FILES + 1]), CSQ_OK);
    IS(csq_requests_submit(requests, number(2), 0, 0, &name), CSQ_FULL);
    IS(readable_of(fds, FILES + 2), 0);
    csq_requests_close(requests);
    IS(readable_of(fds, FILES + 2), FILES + 2);
    IS(csq_requests_complete(requests, &taken, 0), CSQ_OK);
    IS(csq_requests_free(&requests), CSQ_OK);
}

static void an_eventfd_is_readable_while_one_is_listed(uint32_t list) {
    struct csq_requests *requests = made(4, list, NULL);
    struct csq_request taken;
    int any = -1, one = -1, again = -1;
    IS(csq_requests_fd(requests, FILES, &any), CSQ_UNKNOWN_FILE);
    submit(requests, 1, 1, 0);
    IS(csq_requests_fd(requests, CSQ_ANY, &any), CSQ_OK);
    IS(csq_requests_fd(requests, 0, &one), CSQ_OK);
    IS(csq_requests_fd(requests, 0, &again), CSQ_OK);
    CHECK(one == again && one != any);
    IS(is_readable(any), 1);
    IS(is_readable(one), 0);
    IS(next(requests, CSQ_ANY, &taken), 1);
    IS(is_readable(any), 1);
    IS(csq_requests_next(requests, CSQ_ANY, 1, &taken), CSQ_NONE);
    IS(is_readable(any), 0);
    IS(csq_requests_put_back(requests, &taken, 0), CSQ_OK);
    IS(is_readable(any), 1);
    submit(requests, 2, 0, 0);
    IS(is_readable(one), 1);
    IS(csq_requests_drain(requests, CSQ_ANY, 0), CSQ_OK);
    IS(next(requests, 0, &taken), CSQ_ANY);
    IS(is_readable(one), 0);
    csq_requests_close(requests);
    IS(is_readable(one), 1);
    IS(csq_requests_next(requests, 0, 0, &taken), CSQ_CLOSED);
    IS(is_readable(one), 1);
    IS(csq_requests_free(&requests), CSQ_OK);
}

static void an_eventfd_is_readable_unless_there_is_no_room(uint32_t list) {
    static const uint32_t limits[FILES] = { 1, 2, 2 };
    struct csq_requests *requests = NULL;
    struct csq_size size = size_of(2, FILES, list);
    struct csq_irp name;
    struct csq_request taken;
    int all = -1, one = -1;
    IS(csq_requests_new(&requests, &size, limits, NULL), CSQ_OK);
    IS(csq_requests_room_fd(requests, CSQ_ANY, &all), CSQ_OK);
    IS(csq_requests_room_fd(requests, 0, &one), CSQ_OK);
    IS(is_readable(all) + is_readable(one), 2);
    submit(requests, 1, 0, 0);
    IS(is_readable(one), 1);
    IS(csq_requests_submit(requests, number(2), 0, 0, &name), CSQ_FILE_FULL);
    IS(is_readable(one), 0);
    IS(next(requests, 0, &taken), 1);
    IS(is_readable(one), 1);
    submit(requests, 3, 1, 0);
    IS(csq_requests_submit(requests, number(4), 2, 0, &name), CSQ_FULL);
    IS(is_readable(all), 0);
    /* A removal alone frees no number. */
    IS(next(requests, 1, &taken), 3);
    IS(is_readable(all), 0);
    IS(csq_requests_complete(requests, &taken, 0), CSQ_OK);
    IS(is_readable(all), 1);
    submit(requests, 5, 1, 0);
    IS(csq_requests_submit(requests, number(6), 2, 0, &name), CSQ_FULL);
    IS(csq_requests_cleanup(requests, 2, 0), CSQ_OK);
    IS(is_readable(all), 1);
    IS(csq_requests_drain(requests, 1, 0), CSQ_OK);
    IS(csq_requests_free(&requests), CSQ_HOLDING);
    taken.name = irp_in(0, 0);
    IS(csq_requests_complete(requests, &taken, 0), CSQ_OK);
    IS(csq_requests_free(&requests), CSQ_OK);
}

/* ---- Statistics ---- */

static void the_statistics_count(uint32_t list) {
    struct csq_requests *requests = made(2, list, NULL);
    struct csq_requests_stats stats = { sizeof stats, 0, 0, 0, 0, 0, { 0 }, 0, 0, 0, 0 };
    struct csq_request taken;
    struct csq_irp name = submit(requests, 1, 0, 0);
    void *value = NULL;
    submit(requests, 2, 1, 0);
    IS(csq_requests_submit(requests, number(3), 0, 0, &name), CSQ_FULL);
    IS(next(requests, 0, &taken), 1);
    IS(csq_requests_put_back(requests, &taken, 0), CSQ_OK);
    IS(next(requests, 0, &taken), 1);
    IS(csq_requests_complete(requests, &taken, 0), CSQ_OK);
    IS(csq_requests_drain(requests, 1, 0), CSQ_OK);
    name = submit(requests, 4, 0, 0);
    IS(csq_requests_cancel(requests, name, &value), CSQ_OK);
    IS(csq_requests_next(requests, 0, 1, &taken), CSQ_NONE);
    IS(csq_requests_read_stats(requests, &stats), CSQ_OK);
    IS(stats.size, sizeof stats);
    IS(stats.most_under_way, 2);
    IS(stats.submitted, 3);
    IS(stats.taken, 2);
    IS(stats.put_back, 1);
    IS(stats.completed, 1);
    IS(stats.ended[CSQ_WHY_CANCEL], 1);
    IS(stats.ended[CSQ_WHY_DRAIN], 1);
    IS(stats.full, 1);
    IS(stats.file_full, 0);
    CHECK(stats.waits >= 1 && stats.waits <= 4); /* it lets others run four times before */
    IS(stats.waits_for_room, 0);
    IS(csq_requests_free(&requests), CSQ_OK);
}

/* Of a program that was compiled with the first numbers alone, or with more than the library
 * has. */
static void the_statistics_fill_what_the_caller_has(uint32_t list) {
    enum { OLD = offsetof(struct csq_requests_stats, put_back) };
    struct { struct csq_requests_stats stats; uint64_t newer; } got;
    struct csq_requests *requests = made(2, list, NULL);
    static const uint32_t wrong[] = { 0, 4, 7, 9, sizeof got.stats - 1 };
    submit(requests, 1, 0, 0);
    memset(&got, 0xAB, sizeof got);
    got.stats.size = OLD;
    IS(csq_requests_read_stats(requests, &got.stats), CSQ_OK);
    IS(got.stats.size, OLD);
    IS(got.stats.submitted, 1);
    IS((uint32_t)got.stats.put_back, UNWRITTEN);
    got.stats.size = sizeof got;
    IS(csq_requests_read_stats(requests, &got.stats), CSQ_OK);
    IS(got.stats.size, sizeof got.stats);
    IS(got.stats.put_back, 0);
    IS((uint32_t)got.newer, UNWRITTEN);
    for (size_t at = 0; at < sizeof wrong / sizeof *wrong; at++) {
        got.stats.size = wrong[at];
        got.stats.submitted = UNWRITTEN;
        IS(csq_requests_read_stats(requests, &got.stats), CSQ_BAD_SIZE);
        IS(got.stats.submitted, UNWRITTEN);
    }
    IS(csq_requests_free(&requests), CSQ_OK);
}

int main(void) {
    RUN_BOTH(a_batch_stops_at_the_first_refusal);
    RUN_BOTH(a_deadline_ends_what_is_listed_and_names_what_is_taken);
    RUN_BOTH(a_put_back_keeps_the_deadline);
    RUN_BOTH(the_callers_word_comes_to_the_events);
    RUN_BOTH(a_drain_that_nobody_waits_for_tells_once);
    RUN_BOTH(nobody_is_told_before_the_last_event_returns);
    RUN_BOTH(who_is_told_may_start_the_next_drain);
#ifndef _WIN32
    RUN_BOTH(an_eventfd_is_neither_inherited_nor_waited_for);
    RUN_BOTH(an_edge_comes_again_once_none_was_found);
#endif
    if (HAS_EVENTFDS) {
        RUN_BOTH(a_close_makes_each_eventfd_readable);
        RUN_BOTH(an_eventfd_is_readable_while_one_is_listed);
        RUN_BOTH(an_eventfd_is_readable_unless_there_is_no_room);
    }
    RUN_BOTH(the_statistics_count);
    RUN_BOTH(the_statistics_fill_what_the_caller_has);
    return DONE();
}
