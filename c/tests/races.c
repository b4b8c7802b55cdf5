/* Two threads that go for the same IRPs, one after the other: one inserts or removes them, or
 * removes them and puts them back, the other cancels each at about the same moment. The argument is
 * the number of queues. */
#include "check.h"

#include <pthread.h>
#include <sched.h>
#include <stdatomic.h>

enum { IRPS = 1024 };

static struct device device;
static pthread_mutex_t mutex = PTHREAD_MUTEX_INITIALIZER;
static unsigned long queues = 100;

/* The pace: how many IRPs the first thread has come to, and how many the second is ready for. */
static atomic_uint come_to, ready_for;
static atomic_uint completed[IRPS];
/* What each is completed with: whoever completes it says so before. */
static atomic_uint statuses[IRPS];
static unsigned long by_first, by_cancel, faults_of_first, faults_of_cancel;
static uint64_t states[2];

static void wait_for(atomic_uint *number, unsigned least) {
    for (unsigned tries = 0; atomic_load(number) < least; tries++) {
        if (tries > 1000) {
            sched_yield();
        }
    }
}

/* The first thread goes on alone where the second has no processor. */
static void wait_a_little_for(atomic_uint *number, unsigned least) {
    for (int tries = 0; tries < 2000 && atomic_load(number) < least; tries++) {
    }
}

/* Waits for a while that differs from time to time, so that the two meet at each step of a call. */
static void dally(int who) {
    states[who] = states[who] * 6364136223846793005u + 1442695040888963407u;
    for (volatile uint64_t left = (states[who] >> 33) % 64; left > 0; left--) {
    }
}

static void note(uint32_t irp, uint32_t status) {
    atomic_fetch_add(&completed[irp], 1);
    atomic_store(&statuses[irp], status);
}

static void *cancel_each(void *unused) {
    for (uint32_t irp = 0; irp < IRPS; irp++) {
        struct csq_irp name = { irp, 0 };
        uint32_t found = 0;
        atomic_store(&ready_for, irp + 1);
        wait_for(&come_to, irp + 1);
        dally(1);
        faults_of_cancel += csq_mark_cancel(&device.passes[1], name, &found) != CSQ_OK;
        if (found) {
            pthread_mutex_lock(&mutex);
            faults_of_cancel +=
                csq_cancel_routine(&device.queue, &device.passes[1], name) != CSQ_OK;
            pthread_mutex_unlock(&mutex);
            note(irp, CSQ_STATUS_CANCELLED);
            faults_of_cancel += csq_complete_cancelled(&device.passes[1], name) != CSQ_OK;
            by_cancel++;
        }
    }
    return unused;
}

static void insert_this(uint32_t irp) {
    struct csq_irp context = { 0, 0 };
    pthread_mutex_lock(&mutex);
    uint32_t code = csq_insert(&device.queue, &device.passes[0], irp, 0, 0, &context);
    pthread_mutex_unlock(&mutex);
    faults_of_first += code != CSQ_OK && code != CSQ_CANCELLED;
    if (code == CSQ_CANCELLED) {
        note(irp, CSQ_STATUS_CANCELLED);
        faults_of_first += csq_complete_cancelled(&device.passes[0], context) != CSQ_OK;
        by_first++;
    }
}

/* An even one by its context, and an odd one as the next one. */
static void remove_this(uint32_t irp) {
    struct csq_irp name = { irp, 0 };
    pthread_mutex_lock(&mutex);
    uint32_t code = irp % 2 ? csq_remove_next(&device.queue, &device.passes[0], CSQ_ANY, &name)
                            : csq_remove(&device.queue, &device.passes[0], name);
    pthread_mutex_unlock(&mutex);
    if (code == CSQ_OK) {
        note(name.irp, CSQ_STATUS_SUCCESS);
        faults_of_first += csq_complete(&device.passes[0], name, 0) != CSQ_OK;
        by_first++;
    }
}

/* An odd one at the front. It is left lying there, so that its cancel has to find it: nobody else
 * takes it. */
static void put_back_this(uint32_t irp) {
    struct csq_irp name = { irp, 0 };
    uint32_t code = CSQ_OK;
    for (int turn = 0; turn < 2 && code == CSQ_OK; turn++) {
        pthread_mutex_lock(&mutex);
        code = csq_remove(&device.queue, &device.passes[0], name);
        pthread_mutex_unlock(&mutex);
        if (code == CSQ_OK) {
            pthread_mutex_lock(&mutex);
            code = csq_put_back(&device.queue, &device.passes[0], name, irp % 2, &name);
            pthread_mutex_unlock(&mutex);
        }
    }
    faults_of_first += code != CSQ_OK && code != CSQ_NONE && code != CSQ_CANCELLED;
    if (code == CSQ_CANCELLED) {
        note(irp, CSQ_STATUS_CANCELLED);
        faults_of_first += csq_complete_cancelled(&device.passes[0], name) != CSQ_OK;
        by_first++;
    }
}

static void race(void (*call)(uint32_t)) {
    pthread_t canceller;
    come_to = ready_for = 0;
    IS(pthread_create(&canceller, NULL, cancel_each, NULL), 0);
    wait_for(&ready_for, 1);
    for (uint32_t irp = 0; irp < IRPS; irp++) {
        wait_a_little_for(&ready_for, irp + 1);
        atomic_store(&come_to, irp + 1);
        dally(0);
        call(irp);
    }
    IS(pthread_join(canceller, NULL), 0);
}

/* Each IRP was cancelled in its time, so each was completed, by one of the two. */
static void end_of_race(void) {
    uint32_t irp = UNWRITTEN;
    settle(&device);
    IS(csq_close(&device.queue), CSQ_OK);
    IS(csq_read_listed(&device.queue, CSQ_ANY, &irp), CSQ_NONE);
    for (irp = 0; irp < IRPS; irp++) {
        struct csq_left left = { 0, 0, 0, 0 };
        IS(csq_read_left(&device.queue, irp, &left), CSQ_OK);
        IS(left.cancelled, 1);
        IS(left.completed, 1);
        IS(completed[irp], 1);
        IS(left.status, statuses[irp]);
        completed[irp] = 0;
    }
    IS(csq_free(&device.queue), CSQ_OK);
    IS(faults_of_first + faults_of_cancel, 0);
}

static void race_in_each_queue(uint32_t list, void (*call)(uint32_t), int insert_before) {
    states[0] = 1;
    states[1] = 2;
    by_first = by_cancel = 0;
    for (unsigned long at = 0; at < queues; at++) {
        device = device_of(size_of(IRPS, 1, list));
        for (uint32_t irp = 0; insert_before && irp < IRPS; irp++) {
            IS(put(&device, 2, irp, 0), CSQ_OK);
        }
        race(call);
        end_of_race();
    }
    snprintf(check_note, sizeof check_note,
             " (%lu queues of %d IRPs: the cancel was first for %lu, and last for %lu)", queues,
             IRPS, insert_before ? by_cancel : by_first, insert_before ? by_first : by_cancel);
}

static void an_insert_and_a_cancel(uint32_t list) {
    race_in_each_queue(list, insert_this, 0);
}

static void a_removal_and_a_cancel(uint32_t list) {
    race_in_each_queue(list, remove_this, 1);
}

static void a_put_back_and_a_cancel(uint32_t list) {
    race_in_each_queue(list, put_back_this, 1);
    snprintf(
        check_note, sizeof check_note,
        " (%lu queues of %d IRPs: the cancel found %lu listed, the put-back found %lu cancelled)",
        queues, IRPS, by_cancel, by_first);
}

int main(int count, char **words) {
    if (count > 1) {
        queues = strtoul(words[1], NULL, 10);
    }
    RUN_BOTH(an_insert_and_a_cancel);
    RUN_BOTH(a_removal_and_a_cancel);
    RUN_BOTH(a_put_back_and_a_cancel);
    return DONE();
}
