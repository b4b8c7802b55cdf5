#include "load.h"

#include <fcntl.h>
#include <pthread.h>
#include <stdio.h>
#include <stdlib.h>
#include <sys/resource.h>
#include <sys/socket.h>
#include <sys/un.h>
#include <time.h>
#include <unistd.h>

enum { CLIENTS = 4, HANGS_UP = 8 };

static struct sockaddr_un address;
static socklen_t length;
static pthread_barrier_t barrier;

/* A thread that drives its share of the connections, and what it has seen. */
struct client {
    struct load *load;
    pthread_t thread;
    unsigned first;
    unsigned long answers, hang_ups;
    int *fds;
};

void must(int holds, const char *what) {
    if (!holds) {
        perror(what);
        exit(1);
    }
}

long milliseconds(void) {
    struct timespec now;
    clock_gettime(CLOCK_MONOTONIC, &now);
    return (long)now.tv_sec * 1000 + now.tv_nsec / 1000000;
}

void rest(void) {
    struct timespec time = { 0, 1000000 };
    nanosleep(&time, NULL);
}

void load_needs_descriptors(unsigned count) {
    struct rlimit limit;
    must(getrlimit(RLIMIT_NOFILE, &limit) == 0, "getrlimit");
    if (limit.rlim_max < count) {
        fprintf(stderr, "%u descriptors are needed, and %lu allowed (ulimit -Hn)\n", count,
                (unsigned long)limit.rlim_max);
        exit(LOAD_NO_DESCRIPTORS);
    }
    limit.rlim_cur = limit.rlim_cur < count ? count : limit.rlim_cur;
    must(setrlimit(RLIMIT_NOFILE, &limit) == 0, "setrlimit");
}

/* It is bound without a path, so the system gives it a name. */
int load_listen(void) {
    int fd = socket(AF_UNIX, SOCK_SEQPACKET, 0);
    address.sun_family = AF_UNIX;
    must(fd >= 0 && bind(fd, (struct sockaddr *)&address, sizeof address.sun_family) == 0,
         "not bound");
    length = sizeof address;
    must(getsockname(fd, (struct sockaddr *)&address, &length) == 0, "no name");
    must(listen(fd, 1024) == 0 && fcntl(fd, F_SETFL, O_NONBLOCK) == 0, "not listening");
    return fd;
}

static int connect_and_send(const struct load *load) {
    int fd = socket(AF_UNIX, SOCK_SEQPACKET, 0);
    must(fd >= 0 && connect(fd, (struct sockaddr *)&address, length) == 0, "no connection");
    for (uint32_t id = 0; id < load->jobs; id++) {
        must(send(fd, &id, sizeof id, MSG_NOSIGNAL) == (ssize_t)sizeof id, "not sent");
    }
    return fd;
}

/* Each request has one answer. */
static void read_answers(const struct load *load, int fd) {
    uint64_t answered = 0;
    for (unsigned at = 0; at < load->jobs; at++) {
        struct answer answer;
        must(recv(fd, &answer, sizeof answer, 0) == (ssize_t)sizeof answer, "no answer");
        must(answer.id < load->jobs && !(answered >> answer.id & 1), "answered twice");
        answered |= (uint64_t)1 << answer.id;
    }
}

static void connect_all(struct client *client, unsigned round) {
    const struct load *load = client->load;
    for (unsigned at = client->first; at < load->connections; at += CLIENTS) {
        client->fds[at] = connect_and_send(load);
    }
    if (round == 0) {
        if (pthread_barrier_wait(&barrier) == PTHREAD_BARRIER_SERIAL_THREAD) {
            load->all_are_open();
        }
        pthread_barrier_wait(&barrier);
    }
}

static void *run_client(void *of) {
    struct client *client = of;
    const struct load *load = client->load;
    for (unsigned round = 0; round < load->rounds; round++) {
        connect_all(client, round);
        for (unsigned at = client->first; at < load->connections; at += CLIENTS) {
            if ((at / CLIENTS + round) % HANGS_UP == 0) {
                client->hang_ups++;
            } else {
                read_answers(load, client->fds[at]);
                client->answers += load->jobs;
            }
            close(client->fds[at]);
        }
    }
    return NULL;
}

void load_run(struct load *load) {
    struct client clients[CLIENTS];
    int *fds = calloc(load->connections, sizeof *fds);
    must(fds && load->jobs <= LOAD_MOST_JOBS && pthread_barrier_init(&barrier, NULL, CLIENTS) == 0,
         "no clients");
    for (unsigned at = 0; at < CLIENTS; at++) {
        struct client client = { .load = load, .first = at, .fds = fds };
        clients[at] = client;
        must(pthread_create(&clients[at].thread, NULL, run_client, &clients[at]) == 0, "no thread");
    }
    for (unsigned at = 0; at < CLIENTS; at++) {
        must(pthread_join(clients[at].thread, NULL) == 0, "not joined");
        load->answers += clients[at].answers;
        load->hang_ups += clients[at].hang_ups;
    }
    pthread_barrier_destroy(&barrier);
    free(fds);
}
