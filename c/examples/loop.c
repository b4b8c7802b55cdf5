/* A server of one thread over csq_requests.h: one epoll loop reads requests, serves them, cancels
 * those that wait too long and lets connections go, and no call of it waits. A device serves some
 * requests later; one that finds it busy is put back. While the queue has no room the loop doesn't
 * read from its clients. When a client hangs up its requests are drained, and once its connection
 * is quiet the next one has its number. The clients (load.c) are threads beside, and hang up early
 * now and then. In the end every request is accounted for.
 *
 *     cc -std=c99 -Iinclude c/examples/loop.c c/examples/load.c LIBRARY.. -pthread -o loop
 *     cc -std=c99 -IPREFIX/include/keuvatsi loop.c load.c $(pkg-config --libs csq) -o loop
 *     ./loop [CONNECTIONS at once [REQUESTS of each [ROUNDS [DEADLINE in milliseconds]]]]
 */
#define _POSIX_C_SOURCE 200809L
#include "csq_requests.h"
#include "load.h"

#include <errno.h>
#include <pthread.h>
#include <stdio.h>
#include <stdlib.h>
#include <sys/epoll.h>
#include <sys/socket.h>
#include <unistd.h>

enum { REQUESTS = 256, BATCH = 16, DEVICE = 7, MOST_HELD = 4 };
enum { CONNECTIONS, JOBS, ROUNDS, WAIT, OPTIONS };
static unsigned options[OPTIONS] = { 200, 16, 10, 100 };

struct job;
struct connection {
    struct csq_quiet quiet;
    int fd;
    uint32_t file;           /* its number */
    struct job *unlisted;    /* what was read and found no room, while it isn't read from */
    struct connection *next; /* while it is free, or isn't read from */
};
struct job { struct connection *connection; uint32_t id; }; /* what a request carries */

static struct csq_requests *requests;
static struct connection *table, *free_connections, *paused;
static int listener, poller, listed, room;
/* What the device has, which it answers later. */
static struct csq_request held[MOST_HELD];
static unsigned held_count;
/* What became of the requests, and how many connections have gone. */
static unsigned long submitted, served, cancelled, went_back, pauses, gone;

/* Answers a job, which ends here. The client may have hung up: then nobody reads the answer. */
static void answer(struct job *job, uint32_t status) {
    struct answer answer = { job->id, status };
    ssize_t sent = send(job->connection->fd, &answer, sizeof answer, MSG_NOSIGNAL | MSG_DONTWAIT);
    (void)sent;
    *(status == CSQ_STATUS_SUCCESS ? &served : &cancelled) += 1;
    free(job);
}

/* Of a request whose time is over, or whose connection goes. */
static void before_completion(void *context, const struct csq_ending *ending) {
    answer(ending->value, CSQ_STATUS_CANCELLED);
    (void)context;
}

/* ---- Connections ---- */

static void watch(int fd, void *what, uint32_t how) {
    struct epoll_event event = { .events = EPOLLIN | how, .data = { .ptr = what } };
    must(epoll_ctl(poller, EPOLL_CTL_ADD, fd, &event) == 0, "epoll_ctl");
}

static void watch_no_more(const struct connection *connection) {
    must(epoll_ctl(poller, EPOLL_CTL_DEL, connection->fd, NULL) == 0, "epoll_ctl");
}

static void accept_all(void) {
    int fd;
    while (free_connections && (fd = accept(listener, NULL, NULL)) >= 0) {
        struct connection *connection = free_connections;
        free_connections = connection->next;
        connection->fd = fd;
        watch(fd, connection, 0);
    }
}

/* Nothing of the connection is listed or taken any more, so its number is free. */
static void is_quiet(struct csq_quiet *quiet) {
    struct connection *connection = quiet->context;
    close(connection->fd);
    connection->next = free_connections;
    free_connections = connection;
    gone++;
}

/* The client has hung up. */
static void leave(struct connection *connection) {
    const struct csq_quiet quiet = { is_quiet, connection, NULL, 0, 0, NULL };
    watch_no_more(connection);
    connection->quiet = quiet;
    if (csq_requests_drain_start(requests, connection->file, &connection->quiet) == CSQ_OK) {
        is_quiet(&connection->quiet);
    }
}

/* ---- Submits ---- */

/* Submits a job, unless there is no room for it. */
static int find_room(struct job *job) {
    const uint64_t due = csq_requests_now() + options[WAIT];
    const struct csq_submit how = { job, job->connection->file, 0, 0, due };
    struct csq_irp name;
    const uint32_t code = csq_requests_submit_with(requests, &how, &name);
    must(code == CSQ_OK || code == CSQ_FULL, "not submitted");
    submitted += code == CSQ_OK;
    return code == CSQ_OK;
}

static void submit(struct connection *connection, uint32_t id) {
    struct job *job = malloc(sizeof *job), made = { connection, id };
    must(job != NULL, "no memory");
    *job = made;
    if (!find_room(job)) {
        connection->unlisted = job;
        connection->next = paused;
        paused = connection;
        pauses++;
    }
}

static void read_from(struct connection *connection) {
    uint32_t id;
    ssize_t got = 0;
    while (!connection->unlisted &&
           (got = recv(connection->fd, &id, sizeof id, MSG_DONTWAIT)) == (ssize_t)sizeof id) {
        submit(connection, id);
    }
    if (connection->unlisted) {
        watch_no_more(connection);
    } else if (got == 0 || errno != EAGAIN) {
        leave(connection);
    }
}

/* There may be room again: a connection whose job finds some is read from again. */
static void resume(void) {
    while (paused && find_room(paused->unlisted)) {
        struct connection *connection = paused;
        paused = connection->next;
        connection->unlisted = NULL;
        watch(connection->fd, connection, 0);
    }
}

/* ---- Workers ---- */

/* Answers a request before it completes it: once nothing is under way, nothing is answered any
 * more. */
static void finish(const struct csq_request *request, uint32_t status) {
    answer(request->value, status);
    must(csq_requests_complete(requests, request, status) == CSQ_OK, "not completed");
}

static void serve(const struct csq_request *request) {
    const struct job *job = request->value;
    if (job->id % DEVICE != 0) {
        finish(request, CSQ_STATUS_SUCCESS);
    } else if (held_count < MOST_HELD) {
        held[held_count++] = *request;
    } else if (csq_requests_put_back(requests, request, 0) == CSQ_OK) {
        went_back++;
    } else { /* its time is over */
        finish(request, CSQ_STATUS_CANCELLED);
    }
}

static void serve_some(void) {
    struct csq_request batch[BATCH];
    uint32_t taken = 0;
    const uint32_t code = csq_requests_next_many(requests, CSQ_ANY, 0, batch, BATCH, &taken);
    must(code == CSQ_OK || code == CSQ_NONE, "not taken");
    for (uint32_t at = 0; at < taken; at++) {
        serve(&batch[at]);
    }
}

/* The device has served what it had, and looks whether anybody still waits for it. */
static void let_device_answer(void) {
    while (held_count > 0) {
        const struct csq_request request = held[--held_count];
        const uint32_t why = csq_requests_is_cancelled(requests, &request);
        finish(&request, why == CSQ_WHY_NONE ? CSQ_STATUS_SUCCESS : CSQ_STATUS_CANCELLED);
    }
}

/* ---- The loop ---- */

static void look_at(void *what) {
    if (what == &listed) {
        serve_some();
    } else if (what == &room) {
        resume();
    } else if (what != &listener) {
        read_from(what);
    }
}

/* A turn waits for events, for the next deadline, or a millisecond for the device. */
static void turn(void) {
    struct epoll_event events[64];
    const uint32_t due = csq_requests_tick(requests, csq_requests_now());
    const int limit = due < INT32_MAX ? (int)due : -1;
    const int count = epoll_wait(poller, events, 64, held_count == 0 || limit == 0 ? limit : 1);
    let_device_answer();
    for (int at = 0; at < count; at++) {
        look_at(events[at].data.ptr);
    }
    accept_all();
}

static void begin(void) {
    const struct csq_size size = { REQUESTS, options[CONNECTIONS], REQUESTS, 1, 0, CSQ_AUTO };
    const struct csq_requests_events events = { before_completion, NULL, NULL };
    table = calloc(options[CONNECTIONS], sizeof *table);
    must(table && csq_requests_new(&requests, &size, NULL, &events) == CSQ_OK, "no queue");
    for (uint32_t file = 0; file < options[CONNECTIONS]; free_connections = &table[file++]) {
        table[file].file = file;
        table[file].next = free_connections;
    }
    must((poller = epoll_create1(0)) >= 0, "no epoll");
    must(csq_requests_fd(requests, CSQ_ANY, &listed) == CSQ_OK &&
         csq_requests_room_fd(requests, CSQ_ANY, &room) == CSQ_OK, "no eventfd");
    watch(listed, &listed, 0);
    watch(room, &room, EPOLLET); /* it is readable as long as there is room */
    watch(listener = load_listen(), &listener, EPOLLET);
}

/* The clients, which aren't of the server. */
static void none_waits(void) {}
static void *run_clients(void *load) {
    load_run(load);
    return NULL;
}

int main(int count, char **words) {
    struct load load = { 0, 0, 0, none_waits, 0, 0 };
    long began = milliseconds();
    pthread_t clients;
    for (int at = 0; at < OPTIONS && at + 1 < count; at++) {
        options[at] = (unsigned)strtoul(words[at + 1], NULL, 10);
    }
    load_needs_descriptors(2 * options[CONNECTIONS] + 16); /* a connection has two ends */
    load.connections = options[CONNECTIONS];
    load.jobs = options[JOBS];
    load.rounds = options[ROUNDS];
    begin();
    must(pthread_create(&clients, NULL, run_clients, &load) == 0, "no clients");
    while (gone < options[CONNECTIONS] * options[ROUNDS]) {
        turn();
    }
    pthread_join(clients, NULL);
    must(csq_requests_free(&requests) == CSQ_OK, "requests are left");
    free(table);
    printf("%lu requests: %lu served, %lu cancelled; %lu put back; %lu pauses; %ld ms\n", submitted,
           served, cancelled, went_back, pauses, milliseconds() - began);
    /* Of a connection that hung up the server may have read less than was sent. */
    must(load.answers <= submitted && submitted <= load.answers + load.hang_ups * load.jobs,
         "a request was not read");
    must(served + cancelled == submitted && !paused && held_count == 0,
         "a request is not accounted for");
    return 0;
}
