/* A driver in small: two dispatch routines queue requests, a worker completes them, a caller
 * cancels some, a file object is cleaned up, and the queue is closed:
 * cc -std=c11 -Iinclude c/examples/driver.c LIBRARY.. -pthread */
#include "csq.h"

#include <pthread.h>
#include <stdio.h>
#include <stdlib.h>

enum { READS, WRITES, FILES, SHARE = 8, LATE = FILES * SHARE, IRPS, THREADS = 4 };

static struct csq_queue queue = CSQ_EMPTY;
static pthread_mutex_t mutex = PTHREAD_MUTEX_INITIALIZER;
static void lock(void *of) { pthread_mutex_lock(of); }
static void unlock(void *of) { pthread_mutex_unlock(of); }
static const struct csq_lock queue_lock = { .lock = lock, .unlock = unlock, .context = &mutex };

static void must(int holds, const char *what) {
    if (!holds) {
        fprintf(stderr, "driver: %s\n", what);
        exit(1);
    }
}

/* Queues a request, and answers STATUS_PENDING in a driver (IoCsqInsertIrpEx). */
static uint32_t queue_one(struct csq_pass *pass, uint32_t irp, uint32_t file) {
    struct csq_irp context; /* could remove just this request later (IoCsqRemoveIrp) */
    lock(&mutex);
    uint32_t code = csq_insert(&queue, pass, irp, file, 0, &context);
    unlock(&mutex);
    /* Cancelled: where the caller was faster. */
    return code == CSQ_CANCELLED ? csq_complete_cancelled(pass, context) : code;
}
static void dispatch(struct csq_pass *pass, uint32_t file) {
    for (uint32_t irp = file * SHARE; irp < (file + 1) * SHARE; irp++) {
        must(queue_one(pass, irp, file) == CSQ_OK, "a request was not queued");
    }
}
static void *dispatch_reads(void *pass) { return dispatch(pass, READS), NULL; }
static void *dispatch_writes(void *pass) { return dispatch(pass, WRITES), NULL; }

/* The worker takes what is queued for reading (IoCsqRemoveNextIrp), and completes it: nobody else
 * can any more. */
static void *work(void *pass) {
    struct csq_irp irp;
    for (int turn = 0; turn < SHARE; turn++) {
        lock(&mutex);
        uint32_t code = csq_remove_next(&queue, pass, READS, &irp);
        unlock(&mutex);
        must(code == CSQ_NONE || csq_complete(pass, irp, CSQ_STATUS_SUCCESS) == CSQ_OK,
             "not completed");
    }
    return NULL;
}

/* A caller cancels a request of each file object in its first life, queued or not (IoCancelIrp). */
static void *cancel(void *pass) {
    for (uint32_t file = READS; file < FILES; file++) {
        struct csq_irp irp = { .irp = file * SHARE + 3, .life = 0 };
        uint32_t completed; /* 0 where the dispatch routine or the worker completes it */
        must(csq_cancel(&queue, pass, irp, &queue_lock, NULL, &completed) == CSQ_OK,
             "no such request");
    }
    return NULL;
}

int main(void) {
    const struct csq_size size = {
        .irps = IRPS, .files = FILES, .limit = IRPS, .passes = THREADS, .list = CSQ_VECTOR
    };
    void *(*const routines[THREADS])(void *) = { dispatch_reads, dispatch_writes, work, cancel };
    struct csq_pass passes[THREADS] = { CSQ_EMPTY }; /* one for each thread */
    pthread_t threads[THREADS];
    uint32_t cleaned, left;
    must(csq_new(&queue, &size) == CSQ_OK, "no queue");
    for (int at = 0; at < THREADS; at++) {
        lock(&mutex);
        must(csq_take_pass(&queue, &passes[at]) == CSQ_OK, "no pass");
        unlock(&mutex);
        must(pthread_create(&threads[at], NULL, routines[at], &passes[at]) == 0, "no thread");
    }
    for (int at = 0; at < THREADS; at++) {
        must(pthread_join(threads[at], NULL) == 0, "not joined");
    }
    work(&passes[0]);
    /* The last handle to a file object goes: what is queued for it is cancelled
     * (IRP_MJ_CLEANUP). */
    must(csq_cleanup(&queue, &passes[0], WRITES, &queue_lock, NULL, &cleaned) == CSQ_OK,
         "no such file object");
    must(queue_one(&passes[0], LATE, WRITES) == CSQ_FILE_CLOSED, "not refused");
    must(queue_one(&passes[0], LATE, READS) == CSQ_OK, "refused"); /* left, to show what a closed
                                                                    * queue reports */
    for (int at = 0; at < THREADS; at++) {
        must(csq_give_back(&queue, &passes[at]) == CSQ_OK, "a request was not completed");
    }
    must(csq_close(&queue) == CSQ_OK, "not closed");
    for (left = CSQ_ANY; csq_read_listed(&queue, left, &left) == CSQ_OK;) {
        printf("request %u is left in the queue\n", left);
    }
    must(csq_free(&queue) == CSQ_OK, "not freed");
    return 0;
}
