/* Times calls of a queue: speed KIND LOCK THREADS QUEUES. KIND is remove (an insert, a removal and
 * a completion) or cancel (an insert, a cancel and a completion), LOCK is spin or mutex. Each queue
 * has 1,024 IRPs, which the threads share. Prints the nanoseconds for an IRP in the median queue;
 * the making of queues and passes isn't timed.
 *
 * speed sizes TURNS: what each call takes over each kind of list, by how many IRPs are listed; in
 * one thread, without a lock. A row has the list, how many are listed, the call, and the
 * nanoseconds, the median of a turn, in the best turn. */
#include "csq.h"

#include <pthread.h>
#include <sched.h>
#include <stdatomic.h>
#include <stdio.h>
#include <stdlib.h>
#include <string.h>
#include <time.h>

enum { IRPS = 1024, MOST_THREADS = 16, MOST_QUEUES = 10000 };

static struct csq_queue queue = CSQ_EMPTY;
static struct csq_pass passes[MOST_THREADS];
static int threads, cancels, spins;
static int queues;
static double times[MOST_QUEUES];
static atomic_int arrived, turn;
static pthread_mutex_t mutex = PTHREAD_MUTEX_INITIALIZER;
static atomic_bool spinning;

static void must(int holds, const char *what) {
    if (!holds) {
        fprintf(stderr, "speed: %s\n", what);
        exit(1);
    }
}

static inline void pause_briefly(void) {
#if defined(__x86_64__) || defined(__i386__)
    __builtin_ia32_pause();
#endif
}

static inline void lock(void) {
    if (!spins) {
        pthread_mutex_lock(&mutex);
        return;
    }
    while (atomic_exchange_explicit(&spinning, 1, memory_order_acquire)) {
        while (atomic_load_explicit(&spinning, memory_order_relaxed)) {
            pause_briefly();
        }
    }
}

static inline void unlock(void) {
    if (spins) {
        atomic_store_explicit(&spinning, 0, memory_order_release);
    } else {
        pthread_mutex_unlock(&mutex);
    }
}

/* Waits for all threads, awake for a while, since a sleeper's way back would be timed too. */
static void meet(void) {
    int present = atomic_load(&turn);
    if (atomic_fetch_add(&arrived, 1) == threads - 1) {
        atomic_store(&arrived, 0);
        atomic_store(&turn, present + 1);
        return;
    }
    for (int tries = 0; atomic_load(&turn) == present; tries++) {
        if (tries < 1000) {
            pause_briefly();
        } else {
            sched_yield();
        }
    }
}

static void remove_one(struct csq_pass *pass) {
    struct csq_irp irp;
    lock();
    uint32_t code = csq_remove_next(&queue, pass, CSQ_ANY, &irp);
    unlock();
    must(code == CSQ_OK && csq_complete(pass, irp, CSQ_STATUS_SUCCESS) == CSQ_OK, "no removal");
}

static void cancel_one(struct csq_pass *pass, struct csq_irp irp) {
    uint32_t found = 0;
    must(csq_mark_cancel(pass, irp, &found) == CSQ_OK && found, "no cancel");
    lock();
    uint32_t code = csq_cancel_routine(&queue, pass, irp);
    unlock();
    must(code == CSQ_OK && csq_complete_cancelled(pass, irp) == CSQ_OK, "no cancel");
}

/* The IRPs of one thread: it ends each before the next, so that there is always one to remove. */
static void serve(int me) {
    struct csq_pass *pass = &passes[me];
    for (uint32_t irp = (uint32_t)me; irp < IRPS; irp += (uint32_t)threads) {
        struct csq_irp context;
        lock();
        uint32_t code = csq_insert(&queue, pass, irp, 0, 0, &context);
        unlock();
        must(code == CSQ_OK, "no insert");
        if (cancels) {
            cancel_one(pass, context);
        } else {
            remove_one(pass);
        }
    }
}

static void *serve_all(void *of) {
    for (int at = 0; at < queues; at++) {
        meet();
        serve((int)((struct csq_pass *)of - passes));
        meet();
    }
    return NULL;
}

static void begin(void) {
    const struct csq_size size = { IRPS, 1, IRPS, (uint32_t)threads, 0, CSQ_VECTOR };
    must(csq_new(&queue, &size) == CSQ_OK, "no queue");
    for (int at = 0; at < threads; at++) {
        must(csq_take_pass(&queue, &passes[at]) == CSQ_OK, "no pass");
    }
}

static void end(void) {
    for (int at = 0; at < threads; at++) {
        must(csq_give_back(&queue, &passes[at]) == CSQ_OK, "an IRP is left");
    }
    must(csq_free(&queue) == CSQ_OK, "not freed");
}

static double now(void) {
    struct timespec time;
    clock_gettime(CLOCK_MONOTONIC, &time);
    return (double)time.tv_sec * 1e9 + (double)time.tv_nsec;
}

/* The first thread is this one. */
static void run(void) {
    pthread_t others[MOST_THREADS];
    for (int at = 1; at < threads; at++) {
        must(pthread_create(&others[at], NULL, serve_all, &passes[at]) == 0, "no thread");
    }
    for (int at = 0; at < queues; at++) {
        begin();
        double start = now();
        meet();
        serve(0);
        meet();
        times[at] = now() - start;
        end();
    }
    for (int at = 1; at < threads; at++) {
        pthread_join(others[at], NULL);
    }
}

static int compare(const void *one, const void *other) {
    const double *a = one, *b = other;
    return (*a > *b) - (*a < *b);
}

/* ---- The cost by size ---- */

/* A turn of a row has at most MOST_SAMPLES samples, or fewer where they take most_time nanoseconds.
 * A sample is of up to MOST_CALLS calls. */
enum { MOST_SAMPLES = 400, MOST_CALLS = 64 };
static const double most_time = 2e7;

static struct csq_irp names[CSQ_MOST_IRPS]; /* of the listed, those to be ended next first */
static uint32_t listed, files, victims[MOST_CALLS], calls;
static uint64_t state = 1;
static double clock_costs;

static uint32_t pick(uint32_t below) {
    state = state * 6364136223846793005u + 1442695040888963407u;
    return (uint32_t)(state >> 33) % below;
}

/* What is timed: so many calls, which end as many of the listed or list them again. */
static void insert_victims(void) {
    for (uint32_t at = 0; at < calls; at++) {
        uint32_t irp = victims[at];
        must(csq_insert(&queue, passes, irp, irp % files, 0, &names[irp]) == CSQ_OK, "no insert");
    }
}
static void remove_next(void) {
    struct csq_irp irp;
    for (uint32_t at = 0; at < calls; at++) {
        must(csq_remove_next(&queue, passes, CSQ_ANY, &irp) == CSQ_OK, "no removal");
        victims[at] = irp.irp;
    }
}
static void remove_next_of_file(void) {
    struct csq_irp irp;
    for (uint32_t at = 0; at < calls; at++) {
        must(csq_remove_next(&queue, passes, victims[at] % files, &irp) == CSQ_OK, "no removal");
        victims[at] = irp.irp;
    }
}
static void remove_victims(void) {
    for (uint32_t at = 0; at < calls; at++) {
        must(csq_remove(&queue, passes, names[victims[at]]) == CSQ_OK, "no removal");
    }
}
static void cancel_victims(void) {
    uint32_t found = 0;
    for (uint32_t at = 0; at < calls; at++) {
        must(csq_mark_cancel(passes, names[victims[at]], &found) == CSQ_OK && found, "no cancel");
        must(csq_cancel_owed(&queue, passes, names[victims[at]]) == CSQ_OK, "no cancel");
    }
}

/* Some of the listed, no two the same: those that were listed last, which are in the caches; or
 * any, far from each other, which aren't where there are many. */
static void pick_victims(int late) {
    uint32_t first = late ? 0 : pick(listed);
    for (uint32_t at = 0; at < calls; at++) {
        victims[at] = (uint32_t)((first + (late ? at : (uint64_t)at * listed / calls)) % listed);
    }
}

static void reuse_victims(void) {
    for (uint32_t at = 0; at < calls; at++) {
        struct csq_irp *name = &names[victims[at]];
        uint32_t code = csq_complete_cancelled(passes, *name);
        must(code == CSQ_OK || code == CSQ_NOT_HELD, "not completed");
        must(csq_reuse(&queue, passes, *name, &name->life) == CSQ_OK, "not used again");
    }
}

static double timed(void (*what)(void)) {
    double start = now();
    what();
    double took = now() - start - clock_costs;
    return took > 0 ? took : 0;
}

static double median_of(double *samples, int count) {
    qsort(samples, (size_t)count, sizeof *samples, compare);
    return samples[count / 2];
}

/* How some of the listed are ended, and which. */
struct way {
    const char *name;
    void (*end)(void);
    int late;
};

/* Ends some of the listed in one way, and lists them again: stores what a call of each takes. */
static void time_way(const struct way *way, double *ends, double *inserts) {
    static double samples[2][MOST_SAMPLES];
    int count = 0;
    for (double sum = 0; count < MOST_SAMPLES && sum < most_time; count++) {
        pick_victims(way->late);
        samples[0][count] = timed(way->end) / calls;
        reuse_victims();
        samples[1][count] = timed(insert_victims) / calls;
        sum += (samples[0][count] + samples[1][count]) * calls;
    }
    *ends = median_of(samples[0], count);
    *inserts = median_of(samples[1], count);
}

static void nothing(void) {
}

static void find_clock_costs(void) {
    double samples[MOST_SAMPLES];
    for (int at = 0; at < MOST_SAMPLES; at++) {
        samples[at] = timed(nothing);
    }
    clock_costs = median_of(samples, MOST_SAMPLES);
}

static struct csq_size size;
static void make(void) { must(csq_new(&queue, &size) == CSQ_OK, "no queue"); }
static void take(void) { must(csq_take_pass(&queue, passes) == CSQ_OK, "no pass"); }
static void give(void) { must(csq_give_back(&queue, passes) == CSQ_OK, "an IRP is held"); }
static void close_it(void) { must(csq_close(&queue) == CSQ_OK, "not closed"); }
static void free_it(void) { must(csq_free(&queue) == CSQ_OK, "not freed"); }

static const struct way ways[] = { { "next", remove_next, 1 },
                                   { "remove-late", remove_victims, 1 },
                                   { "cancel-late", cancel_victims, 1 },
                                   { "next-of-file", remove_next_of_file, 0 },
                                   { "remove", remove_victims, 0 },
                                   { "cancel", cancel_victims, 0 } };
static const char *const others[] = { "insert", "new", "take-pass", "give-back", "close", "free" };
enum {
    WAYS = sizeof ways / sizeof *ways,
    OTHERS = sizeof others / sizeof *others,
    ROWS = WAYS + OTHERS
};

/* All IRPs of a queue of this size are listed, and then a few of them end and are listed again, in
 * each way. */
static void time_size(double *rows) {
    double *other = rows + WAYS, ignored;
    listed = size.irps;
    files = size.files;
    other[1] = timed(make);
    other[2] = timed(take);
    calls = 1;
    for (uint32_t irp = 0; irp < listed; irp++) {
        victims[0] = irp;
        insert_victims();
    }
    calls = listed < 8 * MOST_CALLS ? (listed + 7) / 8 : (uint32_t)MOST_CALLS;
    for (int way = 0; way < WAYS; way++) {
        time_way(&ways[way], &rows[way], way == 0 ? &other[0] : &ignored);
    }
    other[3] = timed(give);
    other[4] = timed(close_it);
    other[5] = timed(free_it);
}

static void time_sizes(int turns) {
    static const uint32_t sizes[] = { 1, 64, 1024, 16384, CSQ_MOST_IRPS };
    for (uint32_t list = CSQ_VECTOR; list <= CSQ_CHAINS; list++) {
        for (size_t at = 0; at < sizeof sizes / sizeof *sizes; at++) {
            double best[ROWS], rows[ROWS];
            uint32_t most_files = sizes[at] < CSQ_MOST_FILES ? sizes[at] : CSQ_MOST_FILES;
            struct csq_size made = { sizes[at], most_files, sizes[at], 1, 0, list };
            size = made;
            for (int done = 0; done < turns; done++) {
                time_size(rows);
                for (int row = 0; row < ROWS; row++) {
                    best[row] = done == 0 || rows[row] < best[row] ? rows[row] : best[row];
                }
            }
            for (int row = 0; row < ROWS; row++) {
                printf("%s %u %s %.1f\n", list == CSQ_VECTOR ? "vector" : "chains",
                       (unsigned)sizes[at], row < WAYS ? ways[row].name : others[row - WAYS],
                       best[row]);
            }
        }
    }
}

int main(int count, char **words) {
    if (count == 3 && strcmp(words[1], "sizes") == 0) {
        find_clock_costs();
        time_sizes(atoi(words[2]));
        return 0;
    }
    must(count == 5, "usage: speed remove|cancel spin|mutex THREADS QUEUES, or speed sizes TURNS");
    cancels = strcmp(words[1], "cancel") == 0;
    spins = strcmp(words[2], "spin") == 0;
    threads = atoi(words[3]);
    queues = atoi(words[4]);
    must(0 < threads && threads <= MOST_THREADS, "threads: 1 to 16");
    must(0 < queues && queues <= MOST_QUEUES, "queues: 1 to 10000");
    run();
    qsort(times, (size_t)queues, sizeof *times, compare);
    printf("%.2f\n", times[queues / 2] / IRPS);
    return 0;
}
