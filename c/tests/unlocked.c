/* A program that forgets the lock in one thread, for a call that only reads. It is the program's
 * fault: over the plain queue the thread sanitizer has to report it. But the thread that has the
 * lock is answered right all the same, and nothing is freed twice, since a call that only reads
 * doesn't write its handle.
 *
 * With the argument "listed" an IRP comes and goes meanwhile, and csq_len reads what that writes:
 * over a library that the thread sanitizer sees into, it has to report that. */
#include "check.h"

#include <pthread.h>
#include <string.h>

static unsigned long turns = 2000;
static int listing;
static unsigned long wrong;
static struct csq_queue queue = CSQ_EMPTY;
static struct csq_pass pass = CSQ_EMPTY;
static pthread_mutex_t mutex = PTHREAD_MUTEX_INITIALIZER;

static void remove_with_the_lock(void) {
    struct csq_irp irp = { 0, 0 };
    uint32_t life = 0;
    wrong += listing && csq_insert(&queue, &pass, 0, 0, 0, &irp) != CSQ_OK;
    wrong += csq_remove_next(&queue, &pass, CSQ_ANY, &irp) !=
             (listing ? (uint32_t)CSQ_OK : (uint32_t)CSQ_NONE);
    wrong += listing && csq_complete(&pass, irp, 0) != CSQ_OK;
    wrong += listing && csq_reuse(&queue, &pass, irp, &life) != CSQ_OK;
}

static void *take_the_lock(void *unused) {
    for (unsigned long turn = 0; turn < turns; turn++) {
        pthread_mutex_lock(&mutex);
        remove_with_the_lock();
        pthread_mutex_unlock(&mutex);
    }
    return unused;
}

static void *count_without_it(void *unused) {
    uint32_t number = 0;
    for (unsigned long turn = 0; turn < turns; turn++) {
        (void)(listing ? csq_len(&queue, &number) : csq_count_passes_out(&queue, &number));
    }
    return unused;
}

static void a_look_without_the_lock_frees_nothing(void) {
    struct csq_size size = { 1, 1, 1, 1, 0, CSQ_VECTOR };
    pthread_t threads[2];
    IS(csq_new(&queue, &size), CSQ_OK);
    IS(csq_take_pass(&queue, &pass), CSQ_OK);
    IS(pthread_create(&threads[0], NULL, take_the_lock, NULL), 0);
    IS(pthread_create(&threads[1], NULL, count_without_it, NULL), 0);
    IS(pthread_join(threads[0], NULL), 0);
    IS(pthread_join(threads[1], NULL), 0);
    IS(wrong, 0);
    IS(csq_give_back(&queue, &pass), CSQ_OK);
    IS(csq_free(&queue), CSQ_OK);
}

int main(int count, char **words) {
    listing = count > 1 && strcmp(words[1], "listed") == 0;
    if (count > 1 && !listing) {
        turns = strtoul(words[1], NULL, 10);
    }
    RUN(a_look_without_the_lock_frees_nothing);
    return DONE();
}
