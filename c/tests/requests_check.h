/* What the tests of csq_requests.h share: queues whose values are numbers, and what their events
 * were called with. */
#ifndef REQUESTS_CHECK_H
#define REQUESTS_CHECK_H

#define _POSIX_C_SOURCE 200809L
#include "csq_requests.h"

#include "check.h"

#include <string.h>

enum { SHORT_TIME = 20, LONG_TIME = 60000 }; /* in milliseconds */
enum { FILES = 3 };                           /* the file objects of each queue */

/* What the events were called with: the values, or 100 more after the completion; and the last. */
struct report {
    struct csq_requests *requests;
    uint32_t events[16];
    uint32_t count;
    struct csq_ending last;
};

static int numbers[64];

static inline void *number(int at) {
    numbers[at] = at;
    return &numbers[at];
}

static inline uint32_t number_of(const void *value) {
    return (uint32_t)*(const int *)value;
}

static inline void note(void *context, const struct csq_ending *ending, uint32_t more,
                        uint32_t under_way) {
    struct report *report = context;
    uint32_t listed = UNWRITTEN, all = UNWRITTEN;
    void *none = NULL;
    /* It isn't listed, and the mutex is free. */
    IS(csq_requests_len(report->requests, CSQ_ANY, &listed, &all), CSQ_OK);
    CHECK(all >= under_way);
    IS(csq_requests_cancel(report->requests, ending->name, &none),
       under_way ? CSQ_NONE : CSQ_STALE);
    report->events[report->count++ % 16] = number_of(ending->value) + more;
    report->last = *ending;
}
static inline void note_before(void *context, const struct csq_ending *ending) {
    note(context, ending, 0, 1);
}
static inline void note_after(void *context, const struct csq_ending *ending) {
    note(context, ending, 100, 0);
}

static inline struct csq_requests *made(uint32_t irps, uint32_t list,
                                        const struct csq_requests_events *events) {
    struct csq_requests *requests = NULL;
    struct csq_size size = size_of(irps, FILES, list);
    IS(csq_requests_new(&requests, &size, NULL, events), CSQ_OK);
    return requests;
}

static inline struct csq_requests *reported(uint32_t irps, uint32_t list, struct report *report) {
    struct csq_requests_events events = { note_before, note_after, report };
    memset(report, 0, sizeof *report);
    report->requests = made(irps, list, &events);
    return report->requests;
}

static inline void the_events_were(const struct report *report, const uint32_t *want,
                                   uint32_t count) {
    IS(report->count, count);
    for (uint32_t at = 0; at < count; at++) {
        IS(report->events[at], want[at]);
    }
}

/* Why the last request ended, and with which word. */
static inline void it_ended(const struct report *report, uint32_t why, const void *word) {
    IS(report->last.why, why);
    CHECK(report->last.word == word);
}

static inline struct csq_irp submit(struct csq_requests *requests, int value, uint32_t file,
                                    uint32_t front) {
    struct csq_irp name = { UNWRITTEN, UNWRITTEN };
    IS(csq_requests_submit(requests, number(value), file, front, &name), CSQ_OK);
    return name;
}

/* The same with a deadline. */
static inline struct csq_irp submit_until(struct csq_requests *requests, int value, uint32_t file,
                                          uint64_t due) {
    struct csq_submit made = { number(value), file, 0, 0, due };
    struct csq_irp name = { UNWRITTEN, UNWRITTEN };
    IS(csq_requests_submit_with(requests, &made, &name), CSQ_OK);
    return name;
}

/* The value of the next request, or CSQ_ANY, and the request. */
static inline uint32_t next(struct csq_requests *requests, uint32_t file,
                            struct csq_request *request) {
    uint32_t code = csq_requests_next(requests, file, 0, request);
    CHECK(code == CSQ_OK || code == CSQ_NONE);
    return code == CSQ_OK ? number_of(request->value) : CSQ_ANY;
}

static inline uint32_t under_way(struct csq_requests *requests, uint32_t file) {
    uint32_t listed = UNWRITTEN, all = UNWRITTEN;
    IS(csq_requests_len(requests, file, &listed, &all), CSQ_OK);
    CHECK(listed <= all);
    return all;
}

#endif
