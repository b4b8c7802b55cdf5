/* The calls of csq_requests.h, in one thread. */
#include "requests_check.h"

static void the_lengths_are(struct csq_requests *requests, uint32_t file, uint32_t listed,
                            uint32_t under_way) {
    uint32_t got_listed = UNWRITTEN, got_under_way = UNWRITTEN;
    IS(csq_requests_len(requests, file, &got_listed, &got_under_way), CSQ_OK);
    IS(got_listed, listed);
    IS(got_under_way, under_way);
}

static void values_come_out_in_order(uint32_t list) {
    struct csq_requests *requests = made(4, list, NULL);
    struct csq_request first, odd;
    struct csq_irp name;
    for (int value = 0; value < 4; value++) {
        name = submit(requests, value, (uint32_t)value % 2, value == 2);
    }
    IS(next(requests, CSQ_ANY, &first), 2);
    IS(next(requests, 1, &odd), 1);
    IS(first.file, 0);
    IS(odd.file, 1);
    the_lengths_are(requests, CSQ_ANY, 2, 4);
    the_lengths_are(requests, 0, 1, 2);
    the_lengths_are(requests, 1, 1, 2);
    the_lengths_are(requests, 2, 0, 0);
    IS(csq_requests_complete(requests, &odd, CSQ_STATUS_PENDING), CSQ_NOT_FINAL);
    IS(csq_requests_complete(requests, &odd, 7), CSQ_OK);
    IS(csq_requests_complete(requests, &odd, 7), CSQ_NOT_HELD);
    IS(csq_requests_complete(requests, &first, 0), CSQ_OK);
    IS(next(requests, 2, &first), CSQ_ANY);
    IS(next(requests, CSQ_ANY, &first), 0);
    IS(next(requests, 1, &odd), 3);
    CHECK(odd.name.irp == name.irp && odd.name.life == name.life);
    IS(csq_requests_complete(requests, &first, 0), CSQ_OK);
    IS(csq_requests_free(&requests), CSQ_HOLDING);
    IS(csq_requests_submit(requests, number(5), 0, 0, &name), CSQ_CLOSED);
    IS(csq_requests_complete(requests, &odd, 0), CSQ_OK);
    IS(csq_requests_free(&requests), CSQ_OK);
    CHECK(!requests);
    IS(csq_requests_free(&requests), CSQ_OK);
}

static void a_refusal_leaves_the_value(uint32_t list) {
    static const uint32_t limits[FILES] = { 1, 3, 3 };
    struct csq_requests *requests = NULL;
    struct csq_size size = size_of(3, FILES, list);
    struct csq_irp name = { UNWRITTEN, UNWRITTEN };
    struct csq_request taken;
    size.limit = 2;
    size.passes = 0; /* which isn't looked at */
    IS(csq_requests_new(&requests, &size, limits, NULL), CSQ_OK);
    IS(csq_requests_new(&requests, &size, limits, NULL), CSQ_NOT_EMPTY);
    IS(csq_requests_submit(requests, number(0), FILES, 0, &name), CSQ_UNKNOWN_FILE);
    IS(csq_requests_submit(requests, number(0), CSQ_ANY, 0, &name), CSQ_UNKNOWN_FILE);
    submit(requests, 0, 0, 0);
    IS(csq_requests_submit(requests, number(1), 0, 0, &name), CSQ_FILE_FULL);
    submit(requests, 1, 1, 0);
    IS(csq_requests_submit(requests, number(2), 1, 0, &name), CSQ_FULL);
    IS(csq_requests_next(requests, FILES, 0, &taken), CSQ_UNKNOWN_FILE);
    IS(next(requests, 0, &taken), 0);
    submit(requests, 2, 2, 0);
    /* Each of the three is under way, though only two are listed. */
    IS(csq_requests_submit(requests, number(3), 1, 0, &name), CSQ_FULL);
    IS(csq_requests_cleanup(requests, 2, 0), CSQ_OK);
    IS(csq_requests_submit(requests, number(3), 2, 0, &name), CSQ_FILE_CLOSED);
    IS(csq_requests_cleanup(requests, FILES, 0), CSQ_UNKNOWN_FILE);
    IS(csq_requests_drain(requests, FILES, 0), CSQ_UNKNOWN_FILE);
    IS(csq_requests_len(requests, FILES, &name.irp, &name.life), CSQ_UNKNOWN_FILE);
    IS(csq_requests_complete(requests, &taken, 0), CSQ_OK);
    IS(name.irp, UNWRITTEN);
    IS(csq_requests_free(&requests), CSQ_OK);
    size.irps = 0;
    IS(csq_requests_new(&requests, &size, limits, NULL), CSQ_BAD_SIZE);
    CHECK(!requests);
}

static void a_cancel_gets_the_value_or_says_why_not(uint32_t list) {
    static const uint32_t cancelled[] = { 1, 101 };
    struct report report;
    struct csq_requests *requests = reported(2, list, &report);
    struct csq_irp first, second, unborn;
    struct csq_request taken, again;
    void *value = NULL;
    IS(csq_requests_cancel(requests, irp_in(2, 0), &value), CSQ_UNKNOWN_IRP);
    IS(csq_requests_cancel(requests, irp_in(0, 0), &value), CSQ_STALE);
    first = submit(requests, 1, 0, 0);
    second = submit(requests, 2, 0, 0);
    IS(csq_requests_cancel(requests, first, &value), CSQ_OK);
    IS(number_of(value), 1);
    the_events_were(&report, cancelled, 2);
    IS(csq_requests_cancel(requests, first, &value), CSQ_STALE);
    /* A name that a later submit may get names nothing yet. */
    unborn = irp_in(first.irp, first.life + 1);
    IS(csq_requests_cancel(requests, unborn, &value), CSQ_STALE);
    unborn = submit(requests, 3, 1, 0);
    CHECK(unborn.irp == first.irp && unborn.life == first.life + 1);
    IS(next(requests, 0, &taken), 2);
    IS(csq_requests_is_cancelled(requests, &taken), 0);
    IS(csq_requests_cancel(requests, second, &value), CSQ_NONE);
    IS(csq_requests_is_cancelled(requests, &taken), CSQ_WHY_CANCEL);
    IS(number_of(value), 1);
    IS(csq_requests_complete(requests, &taken, 0), CSQ_OK);
    IS(csq_requests_cancel(requests, second, &value), CSQ_STALE);
    second = submit(requests, 4, 0, 0);
    IS(next(requests, 0, &again), 4);
    CHECK(again.name.irp == taken.name.irp);
    IS(csq_requests_cancel(requests, second, &value), CSQ_NONE);
    IS(csq_requests_is_cancelled(requests, &again), 1);
    IS(csq_requests_is_cancelled(requests, &taken), 0);
    IS(csq_requests_complete(requests, &again, 0), CSQ_OK);
    IS(report.count, 2);
    IS(csq_requests_free(&requests), CSQ_OK);
    /* What was listed at the end was reported. */
    IS(report.count, 4);
    IS(report.events[2], 3);
    IS(report.events[3], 103);
}

static void what_is_put_back_keeps_its_name(uint32_t list) {
    struct report report;
    struct csq_requests *requests = reported(2, list, &report);
    struct csq_irp first = submit(requests, 1, 0, 0);
    struct csq_request taken, again;
    void *value = NULL;
    submit(requests, 2, 1, 0);
    IS(next(requests, CSQ_ANY, &taken), 1);
    IS(csq_requests_put_back(requests, &taken, 0), CSQ_OK);
    IS(csq_requests_put_back(requests, &taken, 0), CSQ_NOT_HELD);
    IS(next(requests, CSQ_ANY, &again), 2);
    IS(csq_requests_complete(requests, &again, 0), CSQ_OK);
    IS(next(requests, CSQ_ANY, &again), 1);
    CHECK(again.name.irp == first.irp && again.name.life == first.life);
    submit(requests, 4, 0, 0);
    IS(csq_requests_put_back(requests, &again, 1), CSQ_OK);
    IS(next(requests, 0, &again), 1);
    IS(csq_requests_put_back(requests, &again, 1), CSQ_OK);
    IS(csq_requests_cancel(requests, first, &value), CSQ_OK);
    IS(next(requests, 0, &again), 4);
    IS(csq_requests_complete(requests, &again, 0), CSQ_OK);
    IS(number_of(value), 1);
    first = submit(requests, 3, 2, 0);
    IS(next(requests, 2, &taken), 3);
    IS(csq_requests_cleanup(requests, 2, 0), CSQ_HOLDING);
    IS(csq_requests_put_back(requests, &taken, 1), CSQ_FILE_CLOSED);
    IS(csq_requests_complete(requests, &taken, 0), CSQ_OK);
    IS(csq_requests_cleanup(requests, 2, 0), CSQ_OK);
    IS(report.count, 2);
    IS(csq_requests_free(&requests), CSQ_OK);
}

/* A cancel comes between the removal and the put-back: the request is still taken, and it is
 * completed as cancelled. */
static void what_a_cancel_has_named_is_not_put_back(uint32_t list) {
    struct report report;
    struct csq_requests *requests = reported(2, list, &report);
    struct csq_irp name = submit(requests, 1, 0, 0);
    struct csq_request taken, other;
    void *value = NULL;
    IS(next(requests, CSQ_ANY, &taken), 1);
    IS(csq_requests_cancel(requests, name, &value), CSQ_NONE);
    IS(csq_requests_put_back(requests, &taken, 1), CSQ_CANCELLED);
    IS(next(requests, CSQ_ANY, &other), CSQ_ANY);
    IS(under_way(requests, 0), 1);
    IS(csq_requests_is_cancelled(requests, &taken), 1);
    IS(csq_requests_cancel(requests, name, &value), CSQ_NONE);
    IS(csq_requests_drain(requests, 0, 0), CSQ_HOLDING);
    IS(csq_requests_put_back(requests, &taken, 1), CSQ_NOT_REMOVED);
    IS(csq_requests_complete(requests, &taken, CSQ_STATUS_SUCCESS), CSQ_NOT_REMOVED);
    IS(csq_requests_complete(requests, &taken, CSQ_STATUS_FILE_CLOSED), CSQ_NOT_REMOVED);
    IS(csq_requests_complete(requests, &taken, CSQ_STATUS_CANCELLED), CSQ_OK);
    IS(csq_requests_complete(requests, &taken, CSQ_STATUS_CANCELLED), CSQ_NOT_HELD);
    IS(csq_requests_cancel(requests, name, &value), CSQ_STALE);
    IS(csq_requests_drain(requests, 0, 0), CSQ_OK);
    IS(report.count, 0);
    IS(csq_requests_free(&requests), CSQ_OK);
}

/* What a worker does by mistake that comes in the event of a request that is being ended, and what
 * csq_requests_is_cancelled says then. */
struct intruder {
    struct csq_requests *requests;
    uint32_t why;
    uint32_t comes;
};

static void come_in_between(void *context, const struct csq_ending *ending) {
    static const uint32_t statuses[] = { CSQ_STATUS_SUCCESS, CSQ_STATUS_PENDING,
                                         CSQ_STATUS_CANCELLED };
    struct intruder *intruder = context;
    struct csq_requests *requests = intruder->requests;
    struct csq_request late = { ending->name, ending->file, ending->value };
    void *none = NULL;
    for (int at = 0; at < 3; at++) {
        IS(csq_requests_complete(requests, &late, statuses[at]), CSQ_NOT_HELD);
        IS(csq_requests_put_back(requests, &late, (uint32_t)at % 2), CSQ_NOT_HELD);
    }
    IS(ending->why, intruder->why);
    IS(csq_requests_is_cancelled(requests, &late), intruder->why);
    IS(csq_requests_cancel(requests, ending->name, &none), CSQ_NONE);
    CHECK(!none);
    IS(under_way(requests, 0), 1);
    intruder->comes++;
}

/* The five calls that end a request which is listed. */
static uint32_t end_by_cancel(struct csq_requests **requests, struct csq_irp name) {
    void *value = NULL;
    uint32_t code = csq_requests_cancel(*requests, name, &value);
    IS(number_of(value), 1);
    return code;
}
static uint32_t end_by_drain(struct csq_requests **requests, struct csq_irp name) {
    (void)name;
    return csq_requests_drain(*requests, 0, 0);
}
static uint32_t end_by_cleanup(struct csq_requests **requests, struct csq_irp name) {
    (void)name;
    return csq_requests_cleanup(*requests, 0, 0);
}
static uint32_t end_by_due(struct csq_requests **requests, struct csq_irp name) {
    (void)name;
    return csq_requests_tick(*requests, 7) == CSQ_FOREVER ? CSQ_OK : CSQ_NONE;
}
static uint32_t end_by_free(struct csq_requests **requests, struct csq_irp name) {
    (void)name;
    return csq_requests_free(requests);
}

static void what_is_being_ended_is_nobody_elses_to_end(uint32_t list) {
    static const struct {
        uint32_t (*end)(struct csq_requests **, struct csq_irp);
        uint32_t why;
    } rows[] = {
        { end_by_cancel, CSQ_WHY_CANCEL },   { end_by_drain, CSQ_WHY_DRAIN },
        { end_by_cleanup, CSQ_WHY_CLEANUP }, { end_by_due, CSQ_WHY_DUE },
        { end_by_free, CSQ_WHY_FREE },
    };
    for (size_t at = 0; at < sizeof rows / sizeof *rows; at++) {
        struct intruder intruder = { NULL, rows[at].why, 0 };
        struct csq_requests_events events = { come_in_between, NULL, &intruder };
        struct csq_requests *requests = intruder.requests = made(2, list, &events);
        struct csq_irp name = submit_until(requests, 1, 0, 7);
        struct csq_request late = { name, 0, NULL };
        IS(rows[at].end(&requests, name), CSQ_OK);
        IS(intruder.comes, 1);
        if (!requests) {
            continue;
        }
        IS(csq_requests_complete(requests, &late, CSQ_STATUS_CANCELLED), CSQ_NOT_HELD);
        IS(csq_requests_is_cancelled(requests, &late), 0);
        IS(csq_requests_drain(requests, 0, 0), CSQ_OK);
        the_lengths_are(requests, CSQ_ANY, 0, 0);
        IS(csq_requests_free(&requests), CSQ_OK);
    }
}

static void a_drain_ends_what_is_listed(uint32_t list) {
    static const uint32_t drained[] = { 1, 101, 3, 103 };
    struct report report;
    struct csq_requests *requests = reported(8, list, &report);
    struct csq_request taken;
    for (int value = 0; value < 4; value++) {
        submit(requests, value, (uint32_t)value % 2, 0);
    }
    IS(csq_requests_drain(requests, 1, 0), CSQ_OK);
    the_events_were(&report, drained, 4);
    IS(under_way(requests, 1), 0);
    IS(under_way(requests, 0), 2);
    /* The number has its next connection. */
    submit(requests, 5, 1, 0);
    IS(next(requests, 1, &taken), 5);
    submit(requests, 6, 1, 0);
    IS(csq_requests_drain(requests, 1, SHORT_TIME), CSQ_HOLDING);
    IS(report.count, 6);
    IS(csq_requests_complete(requests, &taken, 0), CSQ_OK);
    IS(csq_requests_drain(requests, 1, CSQ_FOREVER), CSQ_OK);
    IS(csq_requests_drain(requests, CSQ_ANY, LONG_TIME), CSQ_OK);
    IS(under_way(requests, CSQ_ANY), 0);
    IS(csq_requests_free(&requests), CSQ_OK);
}

static void lives_end(uint32_t list) {
    struct csq_requests *requests = NULL;
    struct csq_size size = size_of(1, 1, list);
    struct csq_irp name = { 0, 0 };
    struct csq_request taken;
    void *value = NULL;
    size.first_life = CSQ_LAST_LIFE - 1;
    IS(csq_requests_new(&requests, &size, NULL, NULL), CSQ_OK);
    for (int turn = 0; turn < 2; turn++) {
        submit(requests, turn, 0, 0);
        IS(csq_requests_submit(requests, number(9), 0, 0, &name), CSQ_FULL);
        IS(next(requests, CSQ_ANY, &taken), (uint32_t)turn);
        IS(csq_requests_complete(requests, &taken, 0), CSQ_OK);
    }
    IS(csq_requests_submit(requests, number(9), 0, 0, &name), CSQ_LIVES_SPENT);
    IS(csq_requests_cancel(requests, taken.name, &value), CSQ_STALE);
    IS(csq_requests_free(&requests), CSQ_OK);
}

/* Of a request that is over, also where its IRP has no next life. */
static void what_is_over_is_not_cancelled(uint32_t list) {
    struct csq_requests *requests = NULL;
    struct csq_size size = size_of(1, 1, list);
    struct csq_request taken;
    void *value = NULL;
    size.first_life = CSQ_LAST_LIFE - 1;
    IS(csq_requests_new(&requests, &size, NULL, NULL), CSQ_OK);
    for (int turn = 0; turn < 2; turn++) {
        submit(requests, turn, 0, 0);
        IS(next(requests, CSQ_ANY, &taken), (uint32_t)turn);
        IS(csq_requests_cancel(requests, taken.name, &value), CSQ_NONE);
        IS(csq_requests_is_cancelled(requests, &taken), 1);
        IS(csq_requests_complete(requests, &taken, 0), CSQ_OK);
        IS(csq_requests_is_cancelled(requests, &taken), 0);
    }
    taken.name.irp = 1;
    IS(csq_requests_is_cancelled(requests, &taken), 0);
    IS(csq_requests_free(&requests), CSQ_OK);
}

/* A queue in which a submit may be refused for several causes, and the first of them. It has two
 * file objects, and the first may have one request listed. */
struct causes {
    uint32_t irps;
    uint32_t limit;
    uint32_t spent;       /* how many IRPs are past their last life */
    uint32_t taken;       /* how many requests are taken, of the second file object */
    uint32_t others;      /* how many are listed for it */
    uint32_t listed;      /* and for the first */
    uint32_t file_closed; /* 1 if a cleanup closed the first */
    uint32_t closed;      /* 1 if the queue is closed */
    uint32_t file;        /* for which the submit is */
    uint32_t code;
};

/* Submits `count` requests for the second file object, and takes each. Returns the last. */
static struct csq_request take_some(struct csq_requests *requests, uint32_t count) {
    struct csq_request taken = { { 0, 0 }, 0, NULL };
    for (uint32_t at = 0; at < count; at++) {
        submit(requests, 1, 1, 0);
        IS(next(requests, 1, &taken), 1);
    }
    return taken;
}

static void refuse_by_the_first(const struct causes *row, uint32_t list) {
    static const uint32_t limits[] = { 1, 2 };
    struct csq_requests *requests = NULL;
    struct csq_size size = size_of(row->irps, 2, list);
    struct csq_request taken;
    struct csq_irp name = { UNWRITTEN, UNWRITTEN };
    size.limit = row->limit;
    size.first_life = CSQ_LAST_LIFE;
    IS(csq_requests_new(&requests, &size, row->irps == 1 ? NULL : limits, NULL), CSQ_OK);
    taken = take_some(requests, row->spent + row->taken);
    if (row->spent) {
        IS(csq_requests_complete(requests, &taken, 0), CSQ_OK);
    }
    for (uint32_t at = 0; at < row->others + row->listed; at++) {
        submit(requests, 2, at < row->others, 0);
    }
    if (row->file_closed) {
        IS(csq_requests_cleanup(requests, 0, 0), CSQ_OK);
    }
    if (row->closed) {
        csq_requests_close(requests);
    }
    IS(csq_requests_submit(requests, number(3), row->file, 0, &name), row->code);
    IS(name.irp, UNWRITTEN);
    if (row->taken) {
        IS(csq_requests_complete(requests, &taken, 0), CSQ_OK);
    }
    IS(csq_requests_free(&requests), CSQ_OK);
}

/* Each cause beside the next one that can hold with it, in the order of the header's comment. */
static void the_first_cause_of_a_refused_submit_is_told(uint32_t list) {
    static const struct causes rows[] = {
        /* irps, limit, spent, taken, others, listed, file_closed, closed, file, code */
        { 2, 2, 0, 0, 0, 0, 0, 1, 2, CSQ_UNKNOWN_FILE },
        { 2, 2, 0, 0, 0, 0, 0, 1, CSQ_ANY, CSQ_UNKNOWN_FILE },
        { 1, 1, 1, 0, 0, 0, 0, 1, 0, CSQ_CLOSED },
        { 1, 1, 0, 1, 0, 0, 0, 1, 0, CSQ_CLOSED },
        { 1, 1, 0, 0, 0, 0, 1, 1, 0, CSQ_CLOSED },
        { 1, 1, 1, 0, 0, 0, 1, 0, 0, CSQ_FILE_CLOSED },
        { 1, 1, 0, 1, 0, 0, 1, 0, 0, CSQ_FILE_CLOSED },
        { 2, 1, 0, 0, 1, 0, 1, 0, 0, CSQ_FILE_CLOSED },
        { 1, 1, 1, 0, 0, 0, 0, 0, 0, CSQ_LIVES_SPENT },
        { 1, 1, 0, 1, 0, 0, 0, 0, 0, CSQ_FULL },
        { 1, 1, 0, 0, 0, 1, 0, 0, 0, CSQ_FULL },
        { 2, 1, 0, 0, 0, 1, 0, 0, 0, CSQ_FILE_FULL },
        { 2, 1, 0, 0, 1, 0, 0, 0, 0, CSQ_FULL },
    };
    for (size_t at = 0; at < sizeof rows / sizeof *rows; at++) {
        refuse_by_the_first(&rows[at], list);
    }
}

/* The IRP that has been free longest is used next, so that none is spent before the others. */
static void irps_wear_evenly(uint32_t list) {
    static const uint32_t ended[] = { 1, 2, 0 };
    struct csq_requests *requests = NULL;
    struct csq_size size = size_of(3, 1, list);
    struct csq_request taken[3];
    struct csq_irp name;
    size.first_life = CSQ_LAST_LIFE - 2;
    IS(csq_requests_new(&requests, &size, NULL, NULL), CSQ_OK);
    for (uint32_t turn = 0; turn < 3; turn++) {
        IS(submit(requests, 1, 0, 0).irp, turn);
        IS(next(requests, CSQ_ANY, &taken[0]), 1);
        IS(csq_requests_complete(requests, &taken[0], 0), CSQ_OK);
    }
    for (uint32_t turn = 0; turn < 3; turn++) {
        IS(submit(requests, 2, 0, 0).irp, turn);
        IS(next(requests, CSQ_ANY, &taken[turn]), 2);
    }
    for (uint32_t turn = 0; turn < 3; turn++) {
        IS(csq_requests_complete(requests, &taken[ended[turn]], 0), CSQ_OK);
    }
    /* In its last life the queue is as large as it was. */
    for (uint32_t turn = 0; turn < 3; turn++) {
        name = submit(requests, 3, 0, 0);
        IS(name.irp, ended[turn]);
        IS(name.life, CSQ_LAST_LIFE);
    }
    IS(csq_requests_drain(requests, CSQ_ANY, 0), CSQ_OK);
    IS(csq_requests_submit(requests, number(9), 0, 0, &name), CSQ_LIVES_SPENT);
    IS(csq_requests_free(&requests), CSQ_OK);
}

static void a_close_leaves_what_is_listed(uint32_t list) {
    struct csq_requests *requests = made(2, list, NULL);
    struct csq_request taken;
    struct csq_irp name;
    submit(requests, 1, 0, 0);
    submit(requests, 2, 1, 0);
    csq_requests_close(requests);
    /* That no IRP is free is tested after it. */
    IS(csq_requests_submit(requests, number(3), 0, 0, &name), CSQ_CLOSED);
    IS(csq_requests_next(requests, 2, 0, &taken), CSQ_CLOSED);
    IS(csq_requests_next(requests, 2, CSQ_FOREVER, &taken), CSQ_CLOSED);
    IS(csq_requests_next(requests, 1, CSQ_FOREVER, &taken), CSQ_OK);
    IS(csq_requests_put_back(requests, &taken, 0), CSQ_OK);
    IS(csq_requests_next(requests, CSQ_ANY, CSQ_FOREVER, &taken), CSQ_OK);
    IS(number_of(taken.value), 1);
    IS(csq_requests_complete(requests, &taken, 0), CSQ_OK);
    IS(csq_requests_free(&requests), CSQ_OK);
}

int main(void) {
    RUN_BOTH(values_come_out_in_order);
    RUN_BOTH(a_refusal_leaves_the_value);
    RUN_BOTH(a_cancel_gets_the_value_or_says_why_not);
    RUN_BOTH(what_is_put_back_keeps_its_name);
    RUN_BOTH(what_a_cancel_has_named_is_not_put_back);
    RUN_BOTH(what_is_being_ended_is_nobody_elses_to_end);
    RUN_BOTH(a_drain_ends_what_is_listed);
    RUN_BOTH(lives_end);
    RUN_BOTH(what_is_over_is_not_cancelled);
    RUN_BOTH(the_first_cause_of_a_refused_submit_is_told);
    RUN_BOTH(irps_wear_evenly);
    RUN_BOTH(a_close_leaves_what_is_listed);
    return DONE();
}
