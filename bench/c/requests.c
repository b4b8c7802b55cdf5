/* Times a job through csq_requests.h (a submit, a removal and a completion), and through a ring
 * under a mutex with condition variables, which can neither cancel nor drain:
 * requests KIND WORKERS JOBS. KIND is one (a job in a call), batch (16 in a call) or ring. One
 * thread submits, and waits for room; with 0 workers it takes and completes them too. Prints the
 * nanoseconds of processor time for a job, and how often a thread slept in 1,000 jobs. */
#define _POSIX_C_SOURCE 200809L
#include "csq_requests.h"

#include <pthread.h>
#include <stdio.h>
#include <stdlib.h>
#include <string.h>
#include <sys/resource.h>
#include <time.h>

enum { ROOM = 1024, BATCH = 16, MOST_WORKERS = 16 };

static struct csq_requests *requests;
static unsigned long jobs, total;

static void must(int holds, const char *what) {
    if (!holds) {
        fprintf(stderr, "requests: %s\n", what);
        exit(1);
    }
}

/* A job's value is its number, from 1 on. All come out if their sum is right. */
static void *value_of(unsigned long job) {
    return (void *)(uintptr_t)job;
}

static void add(unsigned long sum) {
    __atomic_fetch_add(&total, sum, __ATOMIC_SEQ_CST);
}

/* ---- One in a call ---- */

static void submit_one(unsigned long job) {
    const struct csq_submit submit = { value_of(job), 0, 0, CSQ_FOREVER, 0 };
    struct csq_irp name;
    must(csq_requests_submit_with(requests, &submit, &name) == CSQ_OK, "not submitted");
}

static unsigned long serve_one(uint32_t milliseconds) {
    struct csq_request request;
    if (csq_requests_next(requests, CSQ_ANY, milliseconds, &request) != CSQ_OK) {
        return 0;
    }
    must(csq_requests_complete(requests, &request, CSQ_STATUS_SUCCESS) == CSQ_OK, "not completed");
    return (unsigned long)(uintptr_t)request.value;
}

/* ---- Several in a call ---- */

static unsigned long submit_batch(unsigned long first) {
    struct csq_submit submits[BATCH];
    struct csq_irp names[BATCH];
    const unsigned long left = jobs + 1 - first;
    uint32_t submitted = 0, at, code;
    memset(submits, 0, sizeof submits);
    for (at = 0; at < BATCH; at++) {
        submits[at].value = value_of(first + at);
    }
    submits[0].milliseconds = CSQ_FOREVER;
    code = csq_requests_submit_many(requests, submits, left < BATCH ? (uint32_t)left : BATCH, names,
                                    &submitted);
    must(code == CSQ_OK || code == CSQ_FULL, "not submitted");
    return submitted;
}

static unsigned long serve_batch(uint32_t milliseconds) {
    struct csq_request batch[BATCH];
    unsigned long sum = 0;
    uint32_t taken = 0, completed = 0, at;
    if (csq_requests_next_many(requests, CSQ_ANY, milliseconds, batch, BATCH, &taken) != CSQ_OK) {
        return 0;
    }
    must(csq_requests_complete_many(requests, batch, taken, CSQ_STATUS_SUCCESS, &completed) ==
             CSQ_OK, "not completed");
    for (at = 0; at < taken; at++) {
        sum += (unsigned long)(uintptr_t)batch[at].value;
    }
    return sum;
}

/* ---- The ring ---- */

static struct {
    pthread_mutex_t mutex;
    pthread_cond_t item, room;
    void *values[ROOM];
    unsigned long first, last;
    int waiting, wanting, closed;
} ring = { .mutex = PTHREAD_MUTEX_INITIALIZER,
           .item = PTHREAD_COND_INITIALIZER,
           .room = PTHREAD_COND_INITIALIZER };

static void put_in_ring(unsigned long job) {
    pthread_mutex_lock(&ring.mutex);
    while (ring.last - ring.first == ROOM) {
        ring.wanting++;
        pthread_cond_wait(&ring.room, &ring.mutex);
        ring.wanting--;
    }
    ring.values[ring.last++ % ROOM] = value_of(job);
    if (ring.waiting > 0) {
        pthread_cond_signal(&ring.item);
    }
    pthread_mutex_unlock(&ring.mutex);
}

static unsigned long take_from_ring(uint32_t milliseconds) {
    void *value = NULL;
    (void)milliseconds;
    pthread_mutex_lock(&ring.mutex);
    while (ring.first == ring.last && !ring.closed) {
        ring.waiting++;
        pthread_cond_wait(&ring.item, &ring.mutex);
        ring.waiting--;
    }
    if (ring.first != ring.last) {
        value = ring.values[ring.first++ % ROOM];
        if (ring.wanting > 0) {
            pthread_cond_signal(&ring.room);
        }
    }
    pthread_mutex_unlock(&ring.mutex);
    return (unsigned long)(uintptr_t)value;
}

/* ---- The run ---- */

static unsigned long submit_single(unsigned long job) { submit_one(job); return 1; }
static unsigned long submit_to_ring(unsigned long job) { put_in_ring(job); return 1; }

static const struct kind {
    const char *name;
    unsigned long (*submit)(unsigned long first); /* returns how many jobs */
    unsigned long (*serve)(uint32_t milliseconds); /* returns the sum of their numbers */
} kinds[] = {
    { "one", submit_single, serve_one },
    { "batch", submit_batch, serve_batch },
    { "ring", submit_to_ring, take_from_ring },
};

static void *work(void *of) {
    const struct kind *kind = of;
    unsigned long sum = 0, got;
    while ((got = kind->serve(CSQ_FOREVER)) > 0) {
        sum += got;
    }
    add(sum);
    return NULL;
}

static void close_all(void) {
    csq_requests_close(requests);
    pthread_mutex_lock(&ring.mutex);
    ring.closed = 1;
    pthread_cond_broadcast(&ring.item);
    pthread_mutex_unlock(&ring.mutex);
}

static void run(struct kind *kind, int count) {
    pthread_t workers[MOST_WORKERS];
    unsigned long job;
    int at;
    for (at = 0; at < count; at++) {
        must(pthread_create(&workers[at], NULL, work, kind) == 0, "no thread");
    }
    for (job = 1; job <= jobs;) {
        job += kind->submit(job);
        if (count == 0) {
            add(kind->serve(0));
        }
    }
    close_all();
    for (at = 0; at < count; at++) {
        must(pthread_join(workers[at], NULL) == 0, "not joined");
    }
}

int main(int count, char **words) {
    const struct csq_size size = { ROOM, 1, ROOM, 1, 0, CSQ_AUTO };
    struct kind kind = { NULL, NULL, NULL };
    struct timespec time;
    struct rusage usage;
    size_t at;
    must(count == 4, "requests KIND WORKERS JOBS");
    for (at = 0; at < sizeof kinds / sizeof *kinds; at++) {
        kind = strcmp(kinds[at].name, words[1]) == 0 ? kinds[at] : kind;
    }
    jobs = strtoul(words[3], NULL, 10);
    must(kind.name && atoi(words[2]) <= MOST_WORKERS, "no such kind, or too many workers");
    must(csq_requests_new(&requests, &size, NULL, NULL) == CSQ_OK, "no queue");
    run(&kind, atoi(words[2]));
    must(total == jobs * (jobs + 1) / 2, "a job is lost");
    clock_gettime(CLOCK_PROCESS_CPUTIME_ID, &time);
    getrusage(RUSAGE_SELF, &usage);
    printf("%.1f %.2f\n", ((double)time.tv_sec * 1e9 + (double)time.tv_nsec) / (double)jobs,
           1000 * (double)usage.ru_nvcsw / (double)jobs);
    return 0;
}
