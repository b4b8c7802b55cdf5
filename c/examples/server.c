/* A server over csq_requests.h. One thread with epoll reads requests from connections that come and
 * go, workers serve them, and the queue's clock cancels those that wait too long. A request that
 * finds its device busy is put back. When a client hangs up the requests of its connection are
 * drained, and once it is quiet the next connection has its number. Clients in the same program
 * (load.c) keep the server busy, and hang up early now and then. In the end every request is
 * accounted for.
 *
 *     cc -std=c99 -Iinclude c/examples/server.c c/examples/load.c LIBRARY.. -pthread -o server
 *     cc -std=c99 -IPREFIX/include/keuvatsi server.c load.c $(pkg-config --libs csq) -pthread \
 *         -o server    (installed)
 *     ./server [CONNECTIONS at once [REQUESTS of each [ROUNDS [WORKERS
 *         [DEADLINE in milliseconds]]]]]
 */
#define _POSIX_C_SOURCE 200809L
#include "csq_requests.h"
#include "load.h"

#include <errno.h>
#include <pthread.h>
#include <sched.h>
#include <stdio.h>
#include <stdlib.h>
#include <sys/epoll.h>
#include <sys/eventfd.h>
#include <sys/socket.h>
#include <unistd.h>

enum { DEVICE = 7, MOST_WORKERS = 64 };
enum { CONNECTIONS, JOBS, ROUNDS, WORKERS, WAIT, OPTIONS };
static unsigned options[OPTIONS] = { 200, 16, 10, 4, 100 };

struct connection {
    struct csq_quiet quiet;
    int fd;
    uint32_t file;           /* its number */
    struct connection *next; /* while it is free */
};
struct job { struct connection *connection; uint32_t id; }; /* what a request carries */

static struct csq_requests *requests;
static struct connection *table, *free_connections; /* the latter under the mutex */
static pthread_mutex_t mutex = PTHREAD_MUTEX_INITIALIZER;
static int listener, poller, someone_has_gone, device_busy;
static pthread_t reader, workers[MOST_WORKERS];
/* What became of the requests, and how many connections have gone. */
static unsigned long submitted, served, cancelled, went_back, without_number, gone;

#define ADD(total, count) __atomic_fetch_add(&(total), (count), __ATOMIC_SEQ_CST)
#define NOW(value) __atomic_load_n(&(value), __ATOMIC_SEQ_CST)
/* Answers a job, which ends here. The client may have hung up: then nobody reads the answer. */
static void answer(struct job *job, uint32_t status) {
    struct answer answer = { job->id, status };
    ssize_t sent = send(job->connection->fd, &answer, sizeof answer, MSG_NOSIGNAL | MSG_DONTWAIT);
    (void)sent;
    ADD(*(status == CSQ_STATUS_SUCCESS ? &served : &cancelled), 1);
    free(job);
}

/* Of a request that a cancel or a drain ends. */
static void before_completion(void *context, const struct csq_ending *ending) {
    answer(ending->value, CSQ_STATUS_CANCELLED);
    (void)context;
}

/* ---- Workers ---- */
/* Answers a request before it completes it: once nothing is under way, nothing is answered any
 * more. */
static void finish(const struct csq_request *request, uint32_t status) {
    answer(request->value, status);
    must(csq_requests_complete(requests, request, status) == CSQ_OK, "not completed");
}

static void serve(const struct csq_request *request) {
    struct job *job = request->value;
    if (csq_requests_is_cancelled(requests, request)) {
        finish(request, CSQ_STATUS_CANCELLED);
    } else if (job->id % DEVICE != 0) {
        finish(request, CSQ_STATUS_SUCCESS);
    } else if (!__atomic_exchange_n(&device_busy, 1, __ATOMIC_SEQ_CST)) {
        finish(request, CSQ_STATUS_SUCCESS);
        __atomic_store_n(&device_busy, 0, __ATOMIC_SEQ_CST);
    } else if (csq_requests_put_back(requests, request, 0) == CSQ_OK) {
        ADD(went_back, 1);
        sched_yield(); /* another worker may have it next */
    } else { /* its time is over */
        finish(request, CSQ_STATUS_CANCELLED);
    }
}

static void *work(void *unused) {
    struct csq_request request;
    while (csq_requests_next(requests, CSQ_ANY, CSQ_FOREVER, &request) == CSQ_OK) {
        serve(&request);
    }
    return unused;
}

/* ---- The thread with epoll ---- */
static void watch(int fd, void *what) {
    struct epoll_event event = { .events = EPOLLIN, .data = { .ptr = what } };
    must(epoll_ctl(poller, EPOLL_CTL_ADD, fd, &event) == 0, "epoll_ctl");
}

/* Nothing of the connection is listed or taken any more, so its number is free. Some thread's call
 * of the queue says so: that of the reader, or that of the last worker. */
static void is_quiet(struct csq_quiet *quiet) {
    struct connection *connection = quiet->context;
    const uint64_t one = 1;
    close(connection->fd);
    pthread_mutex_lock(&mutex);
    connection->next = free_connections;
    free_connections = connection;
    pthread_mutex_unlock(&mutex);
    ADD(gone, 1);
    must(write(someone_has_gone, &one, sizeof one) == (ssize_t)sizeof one, "not written");
}

static struct connection *free_connection(void) {
    struct connection *connection;
    pthread_mutex_lock(&mutex);
    connection = free_connections;
    free_connections = connection ? connection->next : NULL;
    pthread_mutex_unlock(&mutex);
    return connection;
}

/* Takes those that wait, as long as there is a number for each. */
static void accept_all(void) {
    struct connection *connection;
    while ((connection = free_connection()) != NULL) {
        connection->fd = accept(listener, NULL, NULL);
        if (connection->fd < 0) {
            pthread_mutex_lock(&mutex);
            connection->next = free_connections;
            free_connections = connection;
            pthread_mutex_unlock(&mutex);
            return;
        }
        watch(connection->fd, connection);
    }
}

static void submit(struct connection *connection, uint32_t id) {
    struct job *job = malloc(sizeof *job), made = { connection, id };
    struct csq_submit how = { job, connection->file, 0, 0, csq_requests_now() + options[WAIT] };
    struct csq_irp name;
    must(job != NULL, "no memory");
    *job = made;
    ADD(submitted, 1);
    if (csq_requests_submit_with(requests, &how, &name) != CSQ_OK) {
        ADD(without_number, 1); /* CSQ_FULL: all requests are under way */
        answer(job, CSQ_STATUS_INSUFFICIENT_RESOURCES);
    }
}

static void read_from(struct connection *connection) {
    uint32_t id;
    ssize_t got;
    while ((got = recv(connection->fd, &id, sizeof id, MSG_DONTWAIT)) == (ssize_t)sizeof id) {
        submit(connection, id);
    }
    if (got == 0 || errno != EAGAIN) { /* the client has hung up */
        const struct csq_quiet quiet = { is_quiet, connection, NULL, 0, 0, NULL };
        must(epoll_ctl(poller, EPOLL_CTL_DEL, connection->fd, NULL) == 0, "epoll_ctl");
        connection->quiet = quiet;
        if (csq_requests_drain_start(requests, connection->file, &connection->quiet) == CSQ_OK) {
            is_quiet(&connection->quiet);
        }
    }
}

static void *read_all(void *unused) {
    struct epoll_event events[256];
    while (NOW(gone) < options[CONNECTIONS] * options[ROUNDS]) {
        int count = epoll_wait(poller, events, 256, -1);
        for (int at = 0; at < count; at++) {
            uint64_t times;
            if (events[at].data.ptr == &someone_has_gone) {
                must(read(someone_has_gone, &times, sizeof times) > 0, "not read");
            } else if (events[at].data.ptr != &listener) {
                read_from(events[at].data.ptr);
            }
        }
        accept_all();
    }
    return unused;
}

/* ---- The program ---- */
static void start(pthread_t *thread, void *(*routine)(void *)) {
    must(pthread_create(thread, NULL, routine, NULL) == 0, "no thread");
}

/* All connections of the first round are open, and have sent their requests. The workers begin once
 * all are under way. */
static void all_are_open(void) {
    uint32_t listed = 0, under_way = 0;
    for (; under_way + NOW(without_number) < options[CONNECTIONS] * options[JOBS]; rest()) {
        must(csq_requests_len(requests, CSQ_ANY, &listed, &under_way) == CSQ_OK, "no length");
    }
    printf("%u connections, %lu requests under way at once\n", options[CONNECTIONS],
           (unsigned long)under_way);
    for (unsigned at = 0; at < options[WORKERS]; at++) {
        start(&workers[at], work);
    }
    must(csq_requests_start_clock(requests) == CSQ_OK, "no clock");
}

static void read_options(int count, char **words) {
    for (int at = 0; at < OPTIONS && at + 1 < count; at++) {
        options[at] = (unsigned)strtoul(words[at + 1], NULL, 10);
    }
    must(options[WORKERS] <= MOST_WORKERS, "too many workers");
    load_needs_descriptors(2 * options[CONNECTIONS] + 16); /* a connection has two ends */
}

static void begin(void) {
    const struct csq_size size = { .irps = CSQ_MOST_IRPS,
                                   .files = options[CONNECTIONS],
                                   .limit = CSQ_MOST_IRPS,
                                   .passes = 1,
                                   .first_life = 0,
                                   .list = CSQ_AUTO };
    const struct csq_requests_events events = { before_completion, NULL, NULL };
    table = calloc(options[CONNECTIONS], sizeof *table);
    must(table && csq_requests_new(&requests, &size, NULL, &events) == CSQ_OK, "no queue");
    for (uint32_t file = 0; file < options[CONNECTIONS]; free_connections = &table[file++]) {
        table[file].file = file;
        table[file].next = free_connections;
    }
    must((poller = epoll_create1(0)) >= 0, "no epoll");
    must((someone_has_gone = eventfd(0, EFD_NONBLOCK)) >= 0, "no eventfd");
    watch(someone_has_gone, &someone_has_gone);
    watch(listener = load_listen(), &listener);
    start(&reader, read_all);
}

/* Once all connections have gone each thread ends, and nothing is left. */
static struct csq_requests_stats end(void) {
    struct csq_requests_stats stats;
    pthread_join(reader, NULL);
    csq_requests_close(requests);
    for (unsigned at = 0; at < options[WORKERS]; at++) {
        pthread_join(workers[at], NULL);
    }
    stats.size = sizeof stats;
    must(csq_requests_read_stats(requests, &stats) == CSQ_OK, "no statistics");
    must(csq_requests_free(&requests) == CSQ_OK, "requests are left");
    free(table);
    return stats;
}

int main(int count, char **words) {
    read_options(count, words);
    struct load load = { options[CONNECTIONS], options[JOBS], options[ROUNDS], all_are_open, 0, 0 };
    long began = milliseconds();
    begin();
    load_run(&load);
    struct csq_requests_stats stats = end();
    printf("%lu requests: %lu served, %lu cancelled; %lu were due while listed; %lu put back; %lu "
           "found no number; workers slept %lu times; %ld ms\n",
           submitted, served, cancelled, (unsigned long)stats.ended[CSQ_WHY_DUE], went_back,
           without_number, (unsigned long)stats.waits, milliseconds() - began);
    /* Of a connection that hung up the server may have read less than was sent. */
    must(load.answers <= submitted && submitted <= load.answers + load.hang_ups * load.jobs,
         "a request was not read");
    must(served + cancelled == submitted && without_number == 0, "a request is not accounted for");
    return 0;
}
