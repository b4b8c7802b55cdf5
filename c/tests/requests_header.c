/* csq_requests.h alone: each call that it promises, as C and as C++. Compiled with all warnings as
 * errors. */
#include "csq_requests.h"

/* A second time does no harm. */
#include "csq_requests.h"

#include <stdio.h>

#ifdef _WIN32 /* which has no eventfds */
enum { EVENTFD = CSQ_NO_MEMORY };
#else
enum { EVENTFD = CSQ_OK };
#endif

/* A queue's whole way, so that every function is compiled, also from C++. */
static uint32_t way(void) {
    struct csq_requests *requests = NULL;
    struct csq_requests_events events = { NULL, NULL, NULL };
    struct csq_size size = { 2, 1, 2, 1, 0, CSQ_VECTOR };
    struct csq_irp name = { 0, 0 };
    struct csq_request taken = { name, 0, NULL }, batch[2] = { taken, taken };
    struct csq_quiet quiet = { NULL, NULL, NULL, 0, 0, NULL };
    struct csq_requests_stats stats;
    uint32_t limits[] = { 2 }, listed = 0, under_way = 0, count = 0;
    int job = 0, fds[2] = { -1, -1 };
    struct csq_submit made = { &job, 0, 0, CSQ_FOREVER, CSQ_NEVER };
    void *value = NULL;
    uint32_t wrong = csq_requests_new(&requests, &size, limits, &events);
    wrong |= csq_requests_submit(requests, &job, 0, 0, &name) |
             csq_requests_cancel(requests, name, &value);
    wrong |= csq_requests_submit(requests, &job, 0, 0, &name) |
             csq_requests_next(requests, CSQ_ANY, 0, &taken);
    wrong |= csq_requests_put_back(requests, &taken, 1) |
             csq_requests_next(requests, 0, CSQ_FOREVER, &taken);
    wrong |= csq_requests_is_cancelled(requests, &taken) |
             csq_requests_complete(requests, &taken, CSQ_STATUS_SUCCESS);
    wrong |= csq_requests_submit_with(requests, &made, &name) |
             csq_requests_submit_many(requests, &made, 1, &name, &count) | (count != 1);
    wrong |= csq_requests_next_many(requests, 0, 0, batch, 2, &count) | (count != 2) |
             csq_requests_complete_many(requests, batch, 2, CSQ_STATUS_SUCCESS, &count);
    wrong |= csq_requests_drain(requests, CSQ_ANY, 0) |
             csq_requests_drain_with(requests, 0, 0, &job);
    wrong |= csq_requests_fd(requests, 0, &fds[0]) != EVENTFD;
    wrong |= csq_requests_room_fd(requests, 0, &fds[1]) != EVENTFD;
    wrong |= (csq_requests_tick(requests, csq_requests_now()) != CSQ_FOREVER) |
             csq_requests_start_clock(requests);
    wrong |= csq_requests_drain_start(requests, 0, &quiet) |
             csq_requests_cleanup_start(requests, 0, &quiet);
    wrong |= csq_requests_cleanup(requests, 0, 0) | csq_requests_cleanup_with(requests, 0, 0, &job);
    stats.size = sizeof stats;
    wrong |= csq_requests_read_stats(requests, &stats) | (stats.submitted != 4) |
             (csq_requests_cancel_with(requests, name, &job, &value) != CSQ_STALE);
    wrong |= csq_requests_len(requests, 0, &listed, &under_way) | listed | under_way;
    csq_requests_close(requests);
    return wrong | csq_requests_free(&requests) | (value != &job) | (requests != NULL);
}

int main(void) {
    int right = way() == 0;
    printf("%s the_header_of_requests_names_what_is_there\n", right ? "passed" : "FAILED");
    return !right;
}
