/* What one thread writes before a call is seen by another after its own call, though neither has
 * the lock in between: the order that the header promises. The thread sanitizer knows of it by the
 * header alone where it doesn't see into the library. Without an argument each row is run,
 * otherwise the one of this number. */
#include "check.h"

#include <pthread.h>
#include <sched.h>
#include <stdatomic.h>

static struct device device;
static pthread_mutex_t mutex = PTHREAD_MUTEX_INITIALIZER;
static const struct csq_irp the_irp = { 0, 0 };
static unsigned long written;
/* Whether the first call has returned. Relaxed, so that it orders nothing. */
static atomic_int returned;

/* The first calls, by pass 0. What they answer is tested by what the second ones find. */
static void insert(struct csq_pass *pass) {
    struct csq_irp context = { 0, 0 };
    pthread_mutex_lock(&mutex);
    CHECK(csq_insert(&device.queue, pass, 0, 0, 0, &context) == CSQ_OK);
    pthread_mutex_unlock(&mutex);
}
static void put_it_back(struct csq_pass *pass) {
    struct csq_irp context = { 0, 0 };
    pthread_mutex_lock(&mutex);
    CHECK(csq_put_back(&device.queue, pass, the_irp, 0, &context) == CSQ_OK);
    pthread_mutex_unlock(&mutex);
}
static void complete(struct csq_pass *pass) { IS(csq_complete(pass, the_irp, 0), CSQ_OK); }
static void complete_cancelled(struct csq_pass *pass) {
    IS(csq_complete_cancelled(pass, the_irp), CSQ_OK);
}
static void cancel_owed(struct csq_pass *pass) {
    pthread_mutex_lock(&mutex);
    IS(csq_cancel_owed(&device.queue, pass, the_irp), CSQ_OK);
    pthread_mutex_unlock(&mutex);
}
static void judge_complete(struct csq_pass *pass) {
    uint32_t verdict = UNWRITTEN;
    pthread_mutex_lock(&mutex);
    IS(csq_judge_complete(&device.queue, pass, the_irp, 0, &verdict), CSQ_OK);
    pthread_mutex_unlock(&mutex);
}
static void judge_insert(struct csq_pass *pass) {
    uint32_t verdict = UNWRITTEN;
    pthread_mutex_lock(&mutex);
    IS(csq_judge_insert(&device.queue, pass, the_irp, &verdict), CSQ_OK);
    pthread_mutex_unlock(&mutex);
}

/* The second calls, by pass 1. */
static void claim(struct csq_pass *pass) {
    uint32_t found = 0;
    IS(csq_mark_cancel(pass, the_irp, &found), CSQ_OK);
    IS(found, 1);
}
static void read_status(struct csq_pass *pass) {
    uint32_t life = UNWRITTEN, status = UNWRITTEN;
    IS(csq_read_status(pass, 0, &life, &status), CSQ_OK);
}
static void reuse(struct csq_pass *pass) {
    uint32_t life = UNWRITTEN;
    pthread_mutex_lock(&mutex);
    IS(csq_reuse(&device.queue, pass, the_irp, &life), CSQ_OK);
    pthread_mutex_unlock(&mutex);
}

/* What pass 0 has of the IRP before the first call. */
enum begin { HOME, HELD, OWES };

static const struct row {
    const char *name;
    enum begin begin;
    void (*first)(struct csq_pass *);
    void (*second)(struct csq_pass *);
} rows[] = {
    { "an_insert_before_its_claim", HOME, insert, claim },
    { "a_put_back_before_its_claim", HELD, put_it_back, claim },
    { "a_completion_before_its_status", HELD, complete, read_status },
    { "a_completion_before_the_next_life", HELD, complete, reuse },
    { "a_completion_as_cancelled_before_its_status", HELD, complete_cancelled, read_status },
    { "a_cancel_before_its_status", OWES, cancel_owed, read_status },
    { "a_judged_completion_before_its_status", HELD, judge_complete, read_status },
    { "a_judged_insert_before_its_status", HELD, judge_insert, read_status },
};

static void *call_first(void *of) {
    const struct row *row = of;
    written = 1;
    row->first(&device.passes[0]);
    atomic_store_explicit(&returned, 1, memory_order_relaxed);
    return NULL;
}

static void *call_second(void *of) {
    const struct row *row = of;
    while (!atomic_load_explicit(&returned, memory_order_relaxed)) {
        sched_yield();
    }
    row->second(&device.passes[1]);
    IS(written, 1);
    return NULL;
}

static void begin(enum begin begin) {
    device = device_of(size_of(1, 1, CSQ_VECTOR));
    if (begin != HOME) {
        IS(put(&device, 0, 0, 0), CSQ_OK);
    }
    if (begin == HELD) {
        IS(take(&device, 0, CSQ_ANY), 0);
    } else if (begin == OWES) {
        IS(mark(&device, 0, 0, 0), 1);
    }
    written = 0;
    returned = 0;
}

static void run(const struct row *row) {
    pthread_t threads[2];
    check_test = row->name;
    check_failed = 0;
    begin(row->begin);
    IS(pthread_create(&threads[0], NULL, call_first, (void *)(uintptr_t)row), 0);
    IS(pthread_create(&threads[1], NULL, call_second, (void *)(uintptr_t)row), 0);
    IS(pthread_join(threads[0], NULL), 0);
    IS(pthread_join(threads[1], NULL), 0);
    end(&device);
    check_end();
}

int main(int count, char **words) {
    size_t only = count > 1 ? strtoul(words[1], NULL, 10) : sizeof rows / sizeof *rows;
    for (size_t at = 0; at < sizeof rows / sizeof *rows; at++) {
        if (only == at || count == 1) {
            run(&rows[at]);
        }
    }
    return DONE();
}
