/* The largest queue: filled and emptied in one thread, and by 256 threads with a pass each, in
 * which each IRP is completed exactly once in each of its lives. The arguments are another number
 * of threads, and of lives. */
#define _POSIX_C_SOURCE 200809L
#include "csq_requests.h"

#include "check.h"

#include <pthread.h>
#include <stdatomic.h>
#include <string.h>

enum { IRPS = CSQ_MOST_IRPS, FILES = CSQ_MOST_FILES, MOST_THREADS = 256 };

/* Over the vector, whose removals by name or by file object take the longer the more are listed,
 * only a few are made. */
enum { FEW = 16 };

static void the_largest_queue_is_filled_and_emptied(uint32_t list) {
    struct device device = device_of(size_of(IRPS, FILES, list));
    uint32_t len = UNWRITTEN, step = list == CSQ_VECTOR ? FILES / FEW : 1;
    for (uint32_t irp = 0; irp < IRPS; irp++) {
        IS(put(&device, 0, irp, irp % FILES), CSQ_OK);
    }
    IS(put(&device, 0, IRPS, 0), CSQ_UNKNOWN_IRP);
    IS(put(&device, 0, 0, FILES), CSQ_UNKNOWN_FILE);
    for (uint32_t file = FILES; file > 0; file -= step) {
        for (uint32_t irp = file - 1; irp < IRPS; irp += FILES) {
            IS(take(&device, 1, file - 1), irp);
            IS(csq_complete(&device.passes[1], irp_in(irp, 0), 0), CSQ_OK);
        }
        IS(take(&device, 1, file - 1), CSQ_ANY);
    }
    for (uint32_t irp = 0; irp < IRPS; irp++) {
        if ((irp % FILES + 1) % step != 0) {
            IS(take(&device, 1, CSQ_ANY), irp);
            IS(csq_complete(&device.passes[1], irp_in(irp, 0), 0), CSQ_OK);
        }
    }
    IS(csq_len(&device.queue, &len), CSQ_OK);
    IS(len, 0);
    end(&device);
}

/* A file object has a limit of its own, whatever its number, and is closed alone. One without has
 * room for all IRPs. */
static void the_last_file_object_has_its_limit(uint32_t list) {
    static uint32_t file_limits[FILES];
    struct csq_size size = { IRPS, FILES, IRPS, CHECK_PASSES, 0, list };
    struct device device = { CSQ_EMPTY, { CSQ_EMPTY, CSQ_EMPTY, CSQ_EMPTY, CSQ_EMPTY }, 2 };
    for (uint32_t file = 0; file < FILES; file++) {
        file_limits[file] = IRPS;
    }
    file_limits[FILES - 1] = 1;
    IS(csq_new_with_file_limits(&device.queue, &size, file_limits, FILES), CSQ_OK);
    hand_out(&device);
    IS(put(&device, 0, 0, FILES - 1), CSQ_OK);
    IS(put(&device, 0, 1, FILES - 1), CSQ_FILE_FULL);
    IS(csq_close_file(&device.queue, &device.passes[0], FILES - 1), CSQ_OK);
    IS(put(&device, 0, 1, FILES - 1), CSQ_FILE_CLOSED);
    IS(put(&device, 0, 1, (FILES - 1) % 256), CSQ_OK);
    IS(take(&device, 1, FILES - 1), 0);
    end(&device);
    file_limits[FILES - 1] = IRPS + 1;
    IS(csq_new_with_file_limits(&device.queue, &size, file_limits, FILES), CSQ_BAD_SIZE);
}

static void one_file_object_has_all_irps(uint32_t list) {
    struct device device = device_of(size_of(IRPS, 1, list));
    uint32_t len = UNWRITTEN;
    for (uint32_t irp = 0; irp < IRPS; irp++) {
        IS(put(&device, 0, irp, 0), CSQ_OK);
    }
    IS(csq_file_len(&device.queue, 0, &len), CSQ_OK);
    IS(len, IRPS);
    end(&device);
}

/* So many at first that the ring of free IRPs goes round in the middle of all of them. */
static void all_requests_of_the_largest_queue_carry_their_values(uint32_t list) {
    static char values[IRPS];
    struct csq_requests *requests = NULL;
    struct csq_size size = size_of(IRPS, 1, list);
    struct csq_request request;
    struct csq_irp name;
    IS(csq_requests_new(&requests, &size, NULL, NULL), CSQ_OK);
    for (uint32_t count = IRPS / 2; count <= IRPS; count += count < IRPS ? IRPS - count : 1) {
        for (uint32_t at = 0; at < count; at++) {
            IS(csq_requests_submit(requests, &values[at], 0, 0, &name), CSQ_OK);
        }
        for (uint32_t at = 0; at < count; at++) {
            IS(csq_requests_next(requests, CSQ_ANY, 0, &request), CSQ_OK);
            CHECK(request.value == &values[at]);
            IS(csq_requests_complete(requests, &request, CSQ_STATUS_SUCCESS), CSQ_OK);
        }
    }
    IS(csq_requests_free(&requests), CSQ_OK);
}

/* Each pass is handed out, of the smallest queue, of one of the most IRPs for one file object, and
 * of the largest. */
static void hand_out_all(struct csq_size size) {
    struct csq_queue queue = CSQ_EMPTY;
    static struct csq_pass passes[CSQ_MOST_PASSES + 1];
    uint32_t out = UNWRITTEN;
    IS(csq_new(&queue, &size), CSQ_OK);
    for (uint32_t at = 0; at <= size.passes; at++) {
        passes[at].at = NULL;
        IS(csq_take_pass(&queue, &passes[at]), at < size.passes ? CSQ_OK : CSQ_NO_PASS);
    }
    for (uint32_t at = size.passes; at-- > 0;) {
        IS(csq_give_back(&queue, &passes[at]), CSQ_OK);
        IS(csq_count_passes_out(&queue, &out), CSQ_OK);
        IS(out, at);
    }
    /* However many are idle. */
    IS(csq_close(&queue), CSQ_OK);
    IS(csq_free(&queue), CSQ_OK);
}

static void a_queue_hands_out_all_passes(uint32_t list) {
    struct csq_size size = { 1, 1, 1, CSQ_MOST_PASSES, 0, list };
    hand_out_all(size);
    size.files = FILES;
    hand_out_all(size);
    size.irps = size.limit = IRPS;
    size.passes = 64; /* each has room for what it may hold of 65,535 */
    hand_out_all(size);
}

/* ---- Threads ---- */

static struct csq_queue queue;
static struct csq_pass passes[MOST_THREADS];
static pthread_mutex_t mutex = PTHREAD_MUTEX_INITIALIZER;
static void lock(void *of) { pthread_mutex_lock(of); }
static void unlock(void *of) { pthread_mutex_unlock(of); }
static const struct csq_lock the_lock = { lock, unlock, &mutex };
static uint32_t threads = MOST_THREADS, lives = 2, life;
static uint32_t kind;
static atomic_uchar completed[IRPS];
static atomic_ulong removed, cancelled, went_back, faults;

static void fault_unless(int holds) {
    faults += !holds;
}

/* This life of the IRP is about to be completed. */
static void note(void *unused, struct csq_irp irp) {
    fault_unless(irp.life == life && atomic_fetch_add(&completed[irp.irp], 1) == 0);
    (void)unused;
}
static const struct csq_callback noting = { note, NULL };

/* Runs this by all threads, each with its pass. */
static void by_all(void *(*routine)(void *)) {
    static pthread_t started[MOST_THREADS];
    for (uint32_t at = 0; at < threads; at++) {
        IS((unsigned)pthread_create(&started[at], NULL, routine, &passes[at]), 0);
    }
    for (uint32_t at = 0; at < threads; at++) {
        IS((unsigned)pthread_join(started[at], NULL), 0);
    }
}

static uint32_t first_of(const struct csq_pass *pass) {
    return (uint32_t)(pass - passes);
}

static void *insert_share(void *of) {
    struct csq_pass *pass = of;
    for (uint32_t irp = first_of(pass); irp < IRPS; irp += threads) {
        struct csq_irp context = { 0, 0 };
        pthread_mutex_lock(&mutex);
        uint32_t code = csq_insert(&queue, pass, irp, irp % FILES, 0, &context);
        pthread_mutex_unlock(&mutex);
        fault_unless(code == CSQ_OK && context.irp == irp && context.life == life);
    }
    return NULL;
}

/* Completes what this removal got. */
static void end_removed(struct csq_pass *pass, uint32_t code, struct csq_irp irp) {
    if (code == CSQ_OK) {
        note(NULL, irp);
        removed++;
        fault_unless(csq_complete(pass, irp, CSQ_STATUS_SUCCESS) == CSQ_OK);
    } else {
        fault_unless(code == CSQ_NONE);
    }
}

/* Puts back what a removal got. A cancel takes no lock, so it may have come since: then this pass
 * completes the IRP. */
static void return_to_queue(struct csq_pass *pass, struct csq_irp irp) {
    struct csq_irp context = irp;
    uint32_t code = csq_put_back(&queue, pass, irp, 0, &context);
    if (code == CSQ_CANCELLED) {
        note(NULL, irp);
        removed++;
        fault_unless(csq_complete_cancelled(pass, irp) == CSQ_OK);
    } else {
        went_back++;
        fault_unless(code == CSQ_OK);
    }
}

static void remove_next(struct csq_pass *pass, uint32_t file, int puts_back) {
    struct csq_irp irp = { 0, 0 };
    pthread_mutex_lock(&mutex);
    uint32_t code = csq_remove_next(&queue, pass, file, &irp);
    if (code == CSQ_OK && puts_back) {
        return_to_queue(pass, irp);
        code = csq_remove_next(&queue, pass, file, &irp);
    }
    pthread_mutex_unlock(&mutex);
    end_removed(pass, code, irp);
}

/* Ends one IRP in one of the ways that there are: this one, or another that is found first. */
static void end_one(struct csq_pass *pass, uint32_t at) {
    struct csq_irp name = { at, life };
    uint32_t way = at / threads % 4, code, found = 0;
    switch (kind == CSQ_VECTOR && at % (4 * FEW) ? 3 : way) {
    case 0:
        pthread_mutex_lock(&mutex);
        code = csq_remove(&queue, pass, name);
        pthread_mutex_unlock(&mutex);
        end_removed(pass, code, name);
        break;
    case 1:
        fault_unless(csq_cancel(&queue, pass, name, &the_lock, &noting, &found) == CSQ_OK);
        cancelled += found;
        break;
    case 2: remove_next(pass, at % FILES, 0); break;
    default: remove_next(pass, CSQ_ANY, at % 3 == 0);
    }
}

/* The IRPs of another thread, which may have ended some of them by now. */
static void *end_share(void *of) {
    struct csq_pass *pass = of;
    for (uint32_t at = (first_of(pass) + 1) % threads; at < IRPS; at += threads) {
        end_one(pass, at);
    }
    return NULL;
}

static void *reuse_share(void *of) {
    struct csq_pass *pass = of;
    for (uint32_t irp = first_of(pass); irp < IRPS; irp += threads) {
        struct csq_irp name = { irp, life };
        uint32_t next = 0;
        pthread_mutex_lock(&mutex);
        uint32_t code = csq_reuse(&queue, pass, name, &next);
        pthread_mutex_unlock(&mutex);
        fault_unless(code == CSQ_OK && next == life + 1);
    }
    return NULL;
}

/* All IRPs are listed at once, ended by all threads, and begin their next life. Those that were put
 * back or missed end by a drain. */
static void live_once(void) {
    uint32_t len = UNWRITTEN, drained = UNWRITTEN;
    memset(completed, 0, sizeof completed);
    by_all(insert_share);
    IS(csq_len(&queue, &len), CSQ_OK);
    IS(len, IRPS);
    IS(csq_file_len(&queue, 1, &len), CSQ_OK);
    IS(len, IRPS / FILES + (IRPS % FILES > 1));
    by_all(end_share);
    IS(csq_drain(&queue, &passes[0], CSQ_ANY, &the_lock, &noting, &drained), CSQ_OK);
    removed += drained;
    for (uint32_t irp = 0; irp < IRPS; irp++) {
        IS(completed[irp], 1);
    }
    by_all(reuse_share);
    IS(faults, 0);
}

static void each_irp_is_completed_once_by_all_threads(uint32_t list) {
    struct csq_size size = { IRPS, FILES, IRPS, threads, 0, list };
    removed = cancelled = went_back = faults = 0;
    kind = list;
    memset(&queue, 0, sizeof queue);
    IS(csq_new(&queue, &size), CSQ_OK);
    for (uint32_t at = 0; at < threads; at++) {
        IS(csq_take_pass(&queue, &passes[at]), CSQ_OK);
    }
    for (life = 0; life < lives && !check_failed; life++) {
        live_once();
    }
    for (uint32_t at = 0; at < threads; at++) {
        IS(csq_give_back(&queue, &passes[at]), CSQ_OK);
    }
    IS(csq_free(&queue), CSQ_OK);
    IS(removed + cancelled, (unsigned long)IRPS * lives);
    snprintf(check_note, sizeof check_note,
             " (%u threads, %u lives: %lu removed, %lu by a cancel; %lu put back)",
             (unsigned)threads, (unsigned)lives, removed, cancelled, went_back);
}

int main(int count, char **words) {
    if (count > 2) {
        threads = (uint32_t)strtoul(words[1], NULL, 10);
        lives = (uint32_t)strtoul(words[2], NULL, 10);
    }
    RUN_BOTH(the_largest_queue_is_filled_and_emptied);
    RUN_BOTH(the_last_file_object_has_its_limit);
    RUN_BOTH(one_file_object_has_all_irps);
    RUN_BOTH(all_requests_of_the_largest_queue_carry_their_values);
    RUN_BOTH(a_queue_hands_out_all_passes);
    RUN_BOTH(each_irp_is_completed_once_by_all_threads);
    return DONE();
}
