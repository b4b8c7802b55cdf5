/* Four threads over one queue, under one mutex, with cancels and completions outside of it: each
 * IRP that was inserted is completed exactly once in each of its lives. The argument is the number
 * of turns that each thread makes. */
#include "check.h"

#include <pthread.h>
#include <sched.h>
#include <stdatomic.h>
#include <string.h>

enum { IRPS = 64, FILES = 4, THREADS = CHECK_PASSES };

static struct device device;
static pthread_mutex_t mutex = PTHREAD_MUTEX_INITIALIZER;
static unsigned long turns = 400000;

/* By IRP: how many of its lives were completed. The next one begins only after that. */
static atomic_uint completed[IRPS];
static atomic_ulong removed, claimed, found_cancelled, went_back, stale, missed, faults;

static void lock(void *of) {
    pthread_mutex_lock((pthread_mutex_t *)of);
}

static void unlock(void *of) {
    pthread_mutex_unlock((pthread_mutex_t *)of);
}

static void fault_unless(int holds) {
    if (!holds) {
        faults++;
    }
}

static uint32_t pick(uint64_t *state, uint32_t below) {
    *state = *state * 6364136223846793005u + 1442695040888963407u;
    return (uint32_t)(*state >> 33) % below;
}

/* Notes that this life of the IRP is about to be completed: all before it were, and it wasn't. */
static void note(uint32_t irp, uint32_t life) {
    fault_unless(atomic_fetch_add(&completed[irp], 1) == life);
}

/* What a removed IRP is completed with: the life and a bit, so never STATUS_PENDING. */
static uint32_t status_in(uint32_t life) {
    return UINT32_C(0x40000000) + life;
}

/* Begins the next life of an IRP, if the one in which the pass sees it is the present one, and
 * completed. */
static void renew(struct csq_pass *pass, uint32_t irp) {
    struct csq_irp name = { irp, 0 };
    uint32_t life = 0, cancelled = 0;
    fault_unless(csq_read_cancel(pass, irp, &name.life, &cancelled) == CSQ_OK);
    lock(&mutex);
    uint32_t code = csq_reuse(&device.queue, pass, name, &life);
    unlock(&mutex);
    fault_unless(code == CSQ_NOT_COMPLETED || code == CSQ_STALE ||
                 (code == CSQ_OK && life == name.life + 1));
}

static void remove_one(struct csq_pass *pass, uint32_t file) {
    struct csq_irp irp = { 0, 0 };
    lock(&mutex);
    uint32_t code = csq_remove_next(&device.queue, pass, file, &irp);
    unlock(&mutex);
    if (code == CSQ_OK) {
        note(irp.irp, irp.life);
        fault_unless(csq_complete(pass, irp, status_in(irp.life)) == CSQ_OK);
        removed++;
    }
}

static void remove_this(struct csq_pass *pass, struct csq_irp irp) {
    lock(&mutex);
    uint32_t code = csq_remove(&device.queue, pass, irp);
    unlock(&mutex);
    if (code == CSQ_OK) {
        note(irp.irp, irp.life);
        fault_unless(csq_complete(pass, irp, status_in(irp.life)) == CSQ_OK);
        removed++;
    }
}

static void insert_one(struct csq_pass *pass, uint32_t irp, uint64_t *state) {
    struct csq_irp context = { 0, 0 };
    lock(&mutex);
    uint32_t code = csq_insert(&device.queue, pass, irp, irp % FILES, pick(state, 2), &context);
    unlock(&mutex);
    if (code == CSQ_CANCELLED) {
        note(irp, context.life);
        fault_unless(csq_complete_cancelled(pass, context) == CSQ_OK);
        found_cancelled++;
    } else if (code == CSQ_OK && pick(state, 8) == 0) {
        remove_this(pass, context);
    }
}

/* A worker that can't serve an IRP: it takes one and puts it back. */
static void put_one_back(struct csq_pass *pass, uint32_t file, uint32_t front) {
    struct csq_irp irp = { 0, 0 };
    lock(&mutex);
    uint32_t code = csq_remove_next(&device.queue, pass, file, &irp);
    unlock(&mutex);
    if (code == CSQ_OK) {
        lock(&mutex);
        code = csq_put_back(&device.queue, pass, irp, front, &irp);
        unlock(&mutex);
        fault_unless(code == CSQ_OK || code == CSQ_CANCELLED);
        went_back++;
    }
    if (code == CSQ_CANCELLED) {
        note(irp.irp, irp.life);
        fault_unless(csq_complete_cancelled(pass, irp) == CSQ_OK);
        found_cancelled++;
    }
}

/* Cancels an IRP in the life that it has or has just left. */
static void cancel_one(struct csq_pass *pass, uint32_t irp, uint32_t back) {
    uint32_t life = atomic_load(&completed[irp]), found = 0;
    struct csq_irp name = { irp, life > back ? life - back : 0 };
    uint32_t code = csq_mark_cancel(pass, name, &found);
    if (code == CSQ_STALE) {
        stale++;
    } else if (!found) {
        missed++;
    } else {
        lock(&mutex);
        fault_unless(csq_cancel_routine(&device.queue, pass, name) == CSQ_OK);
        unlock(&mutex);
        note(irp, name.life);
        fault_unless(csq_complete_cancelled(pass, name) == CSQ_OK);
        claimed++;
    }
}

/* What a pass reads of an IRP is never older than what it read of it before. */
static void read_one(struct csq_pass *pass, uint32_t irp, uint32_t *lives) {
    uint32_t life = 0, value = 0;
    fault_unless(csq_read_cancel(pass, irp, &life, &value) == CSQ_OK && life >= lives[irp] &&
                 value <= 1);
    lives[irp] = life;
    uint32_t code = csq_read_status(pass, irp, &life, &value);
    fault_unless(life >= lives[irp] &&
                 (code == CSQ_NONE || value == status_in(life) || value == CSQ_STATUS_CANCELLED));
}

static void *serve(void *of) {
    struct csq_pass *pass = (struct csq_pass *)of;
    uint64_t state = 1 + (uint64_t)(pass - device.passes);
    uint32_t lives[IRPS] = { 0 };
    for (unsigned long turn = 0; turn < turns; turn++) {
        insert_one(pass, pick(&state, IRPS), &state);
        renew(pass, pick(&state, IRPS));
        if (pick(&state, 2)) {
            cancel_one(pass, pick(&state, IRPS), pick(&state, 8) == 0);
        }
        if (pick(&state, 4) == 0) {
            remove_one(pass, pick(&state, 2) ? CSQ_ANY : pick(&state, FILES));
        }
        if (pick(&state, 2)) {
            put_one_back(pass, pick(&state, 2) ? CSQ_ANY : pick(&state, FILES), pick(&state, 2));
        }
        read_one(pass, pick(&state, IRPS), lives);
    }
    return NULL;
}

static void serve_all(void *(*routine)(void *)) {
    pthread_t threads[THREADS];
    for (int at = 0; at < THREADS; at++) {
        IS(pthread_create(&threads[at], NULL, routine, &device.passes[at]), 0);
    }
    for (int at = 0; at < THREADS; at++) {
        IS(pthread_join(threads[at], NULL), 0);
    }
}

static void begin_counts(void) {
    for (int irp = 0; irp < IRPS; irp++) {
        completed[irp] = 0;
    }
    removed = claimed = found_cancelled = went_back = stale = missed = faults = 0;
}

/* At the end the passes are back with this thread, and each IRP is home or was completed in its
 * present life. */
static void end_of_lives(void) {
    unsigned long sum = 0;
    struct csq_left left = { 0, 0, 0, 0 };
    uint32_t irp = 0;
    for (int at = 0; at < IRPS; at++) {
        remove_one(&device.passes[at % THREADS], CSQ_ANY);
    }
    settle(&device);
    IS(csq_close(&device.queue), CSQ_OK);
    IS(csq_read_listed(&device.queue, CSQ_ANY, &irp), CSQ_NONE);
    for (irp = 0; irp < IRPS; irp++) {
        IS(csq_read_left(&device.queue, irp, &left), CSQ_OK);
        IS(completed[irp], left.life + left.completed);
        sum += completed[irp];
    }
    IS(csq_free(&device.queue), CSQ_OK);
    IS(faults, 0);
    IS(sum, removed + claimed + found_cancelled);
    snprintf(check_note, sizeof check_note,
             " (%lu completions: %lu removed, %lu by a cancel, %lu found cancelled; %lu put back; "
             "%lu cancels came late, %lu for another life)",
             sum, removed, claimed, found_cancelled, went_back, missed, stale);
}

static void each_life_is_completed_once(uint32_t list) {
    begin_counts();
    device = device_of(size_of(IRPS, FILES, list));
    serve_all(serve);
    end_of_lives();
}

/* Inserts its share of the IRPs, cancels any, and cleans one file object up. */
static void *serve_once(void *of) {
    struct csq_pass *pass = (struct csq_pass *)of;
    struct csq_lock the_lock = { lock, unlock, &mutex };
    uint32_t me = (uint32_t)(pass - device.passes), count = 0, cleaned = 0;
    uint64_t state = turns + me;
    for (uint32_t irp = me; irp < IRPS; irp += THREADS) {
        struct csq_irp context = { 0, 0 }, other = { pick(&state, IRPS), 0 };
        lock(&mutex);
        uint32_t code = csq_insert(&device.queue, pass, irp, pick(&state, FILES), 0, &context);
        unlock(&mutex);
        fault_unless(code == CSQ_OK || code == CSQ_CANCELLED || code == CSQ_FILE_CLOSED);
        if (code == CSQ_CANCELLED) {
            fault_unless(csq_complete_cancelled(pass, context) == CSQ_OK);
            completed[irp]++;
        }
        fault_unless(csq_cancel(&device.queue, pass, other, &the_lock, NULL, &count) == CSQ_OK);
        completed[other.irp] += count;
        claimed += count;
    }
    fault_unless(csq_cleanup(&device.queue, pass, me, &the_lock, NULL, &cleaned) == CSQ_OK);
    removed += cleaned;
    return NULL;
}

/* Each IRP was completed, or its insert was refused, since its file object was closed by then. */
static unsigned long end_of_once(void) {
    unsigned long sum = 0, left_home = 0;
    struct csq_left left = { 0, 0, 0, 0 };
    uint32_t irp = 0;
    settle(&device);
    IS(csq_close(&device.queue), CSQ_OK);
    IS(csq_read_listed(&device.queue, CSQ_ANY, &irp), CSQ_NONE);
    for (irp = 0; irp < IRPS; irp++) {
        IS(csq_read_left(&device.queue, irp, &left), CSQ_OK);
        CHECK(completed[irp] <= left.completed);
        CHECK(!left.completed || left.status == CSQ_STATUS_CANCELLED);
        sum += completed[irp];
        left_home += !left.completed;
    }
    IS(csq_free(&device.queue), CSQ_OK);
    IS(faults, 0);
    IS(sum + removed + left_home, IRPS);
    return left_home;
}

static void cancels_and_cleanups_complete_each_irp_once(uint32_t list) {
    unsigned long queues = turns / 500 + 10, refused = 0, by_cancels = 0, by_cleanups = 0;
    for (unsigned long at = 0; at < queues; at++) {
        begin_counts();
        device = device_of(size_of(IRPS, FILES, list));
        serve_all(serve_once);
        refused += end_of_once();
        by_cancels += claimed;
        by_cleanups += removed;
    }
    snprintf(check_note, sizeof check_note,
             " (%lu queues of %d IRPs: %lu by a cancel, %lu by a cleanup, %lu refused)", queues,
             IRPS, by_cancels, by_cleanups, refused);
}

/* A thread that lives for one IRP: takes a pass, inserts its IRP, removes one or cancels its own,
 * and gives the pass back. */
static void *live_briefly(void *of) {
    uint32_t irp = *(uint32_t *)of, found = 0;
    struct csq_pass pass = CSQ_EMPTY;
    struct csq_irp context = { 0, 0 };
    struct csq_lock the_lock = { lock, unlock, &mutex };
    lock(&mutex);
    fault_unless(csq_take_pass(&device.queue, &pass) == CSQ_OK);
    fault_unless(csq_insert(&device.queue, &pass, irp, irp % FILES, 0, &context) == CSQ_OK);
    uint32_t code = irp % 2 ? csq_remove(&device.queue, &pass, context) : (uint32_t)CSQ_NONE;
    unlock(&mutex);
    if (code == CSQ_OK) {
        fault_unless(csq_complete(&pass, context, CSQ_STATUS_SUCCESS) == CSQ_OK);
    } else {
        fault_unless(csq_cancel(&device.queue, &pass, context, &the_lock, NULL, &found) == CSQ_OK &&
                     found == 1);
    }
    lock(&mutex);
    fault_unless(csq_reuse(&device.queue, &pass, context, &context.life) == CSQ_OK);
    fault_unless(csq_give_back(&device.queue, &pass) == CSQ_OK);
    unlock(&mutex);
    return NULL;
}

/* Far more threads than passes, sixty at a time. */
static void short_lived_threads_share_the_passes_of_a_queue(uint32_t list) {
    enum { AT_A_TIME = 60, PASSES = 64 };
    unsigned long rounds = turns / 2400 + 2;
    pthread_t threads[AT_A_TIME];
    uint32_t irps[AT_A_TIME];
    struct csq_size size = { AT_A_TIME, FILES, AT_A_TIME, PASSES, 0, list };
    begin_counts();
    memset(&device, 0, sizeof device);
    IS(csq_new(&device.queue, &size), CSQ_OK);
    for (unsigned long round = 0; round < rounds; round++) {
        for (uint32_t at = 0; at < AT_A_TIME; at++) {
            irps[at] = at;
            IS(pthread_create(&threads[at], NULL, live_briefly, &irps[at]), 0);
        }
        for (uint32_t at = 0; at < AT_A_TIME; at++) {
            IS(pthread_join(threads[at], NULL), 0);
        }
    }
    IS(faults, 0);
    IS(csq_close(&device.queue), CSQ_OK);
    IS(csq_free(&device.queue), CSQ_OK);
    snprintf(check_note, sizeof check_note, " (%lu threads, %d passes)", rounds * AT_A_TIME,
             PASSES);
}

enum { SHARE = IRPS / THREADS };

/* Inserts a share of the IRPs, one after the other. */
static void *insert_share(void *of) {
    struct csq_pass *pass = (struct csq_pass *)of;
    uint32_t begin = (uint32_t)(pass - device.passes) * SHARE;
    for (uint32_t irp = begin; irp < begin + SHARE; irp++) {
        struct csq_irp context = { 0, 0 };
        lock(&mutex);
        fault_unless(csq_insert(&device.queue, pass, irp, 0, 0, &context) == CSQ_OK);
        unlock(&mutex);
    }
    return NULL;
}

static void inserts_of_four_threads_are_removed_in_order(uint32_t list) {
    for (unsigned long at = 0; at < turns / 4000 + 10; at++) {
        uint32_t next[THREADS] = { 0, SHARE, 2 * SHARE, 3 * SHARE };
        begin_counts();
        device = device_of(size_of(IRPS, 1, list));
        serve_all(insert_share);
        IS(faults, 0);
        for (int left = IRPS; left > 0 && !check_failed; left--) {
            uint32_t irp = take(&device, 0, CSQ_ANY);
            CHECK(irp < IRPS && irp == next[irp / SHARE]);
            next[irp % IRPS / SHARE]++;
        }
        IS(take(&device, 0, CSQ_ANY), CSQ_ANY);
        end(&device);
    }
}

enum { CANCELLERS = 8 };

/* How many of them have come. */
static atomic_uint come;

/* Waits for the others, cancels the one IRP, and completes it if its cancel routine was there. */
static void *cancel_the_one(void *of) {
    struct csq_pass *pass = (struct csq_pass *)of;
    struct csq_irp name = { 0, 0 };
    uint32_t found = 0;
    come++;
    while (atomic_load(&come) < CANCELLERS) {
        sched_yield();
    }
    fault_unless(csq_mark_cancel(pass, name, &found) == CSQ_OK);
    if (found) {
        lock(&mutex);
        fault_unless(csq_cancel_routine(&device.queue, pass, name) == CSQ_OK);
        unlock(&mutex);
        fault_unless(csq_complete_cancelled(pass, name) == CSQ_OK);
        claimed++;
    }
    return NULL;
}

/* All of them at once, each with a pass of its own. */
static void cancel_by_eight(struct csq_pass *passes) {
    pthread_t threads[CANCELLERS];
    begin_counts();
    come = 0;
    for (int at = 0; at < CANCELLERS; at++) {
        IS(pthread_create(&threads[at], NULL, cancel_the_one, &passes[at]), 0);
    }
    for (int at = 0; at < CANCELLERS; at++) {
        IS(pthread_join(threads[at], NULL), 0);
    }
    IS(faults, 0);
    IS(claimed, 1);
}

static void one_of_eight_cancels_gets_the_claim(uint32_t list) {
    struct csq_size size = { 1, 1, 1, CANCELLERS, 0, list };
    for (unsigned long at = 0; at < turns / 4000 + 10; at++) {
        struct csq_pass passes[CANCELLERS];
        struct csq_irp context = { 0, 0 };
        struct csq_left left = { 0, 0, 0, 0 };
        memset(&device, 0, sizeof device);
        memset(passes, 0, sizeof passes);
        IS(csq_new(&device.queue, &size), CSQ_OK);
        for (int pass = 0; pass < CANCELLERS; pass++) {
            IS(csq_take_pass(&device.queue, &passes[pass]), CSQ_OK);
        }
        IS(csq_insert(&device.queue, &passes[at % CANCELLERS], 0, 0, 0, &context), CSQ_OK);
        cancel_by_eight(passes);
        for (int pass = 0; pass < CANCELLERS; pass++) {
            IS(csq_give_back(&device.queue, &passes[pass]), CSQ_OK);
        }
        IS(csq_close(&device.queue), CSQ_OK);
        IS(csq_read_left(&device.queue, 0, &left), CSQ_OK);
        CHECK(left.cancelled && left.completed && left.status == CSQ_STATUS_CANCELLED);
        IS(csq_free(&device.queue), CSQ_OK);
    }
}

int main(int count, char **words) {
    if (count > 1) {
        turns = strtoul(words[1], NULL, 10);
    }
    RUN_BOTH(each_life_is_completed_once);
    RUN_BOTH(cancels_and_cleanups_complete_each_irp_once);
    RUN_BOTH(short_lived_threads_share_the_passes_of_a_queue);
    RUN_BOTH(inserts_of_four_threads_are_removed_in_order);
    RUN_BOTH(one_of_eight_cancels_gets_the_claim);
    return DONE();
}
