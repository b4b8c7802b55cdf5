/*
 * Preloaded into a program: each thread is started 50 milliseconds late, and each yield of the
 * processor takes one. REPORT is the number of a descriptor: for each thread that is started a byte
 * is written to it, 'e' if another one has ended by then, otherwise 's'.
 */
#define _GNU_SOURCE
#include <dlfcn.h>
#include <errno.h>
#include <pthread.h>
#include <sched.h>
#include <stdlib.h>
#include <time.h>
#include <unistd.h>

typedef int creator(pthread_t *, const pthread_attr_t *, void *(*)(void *), void *);

struct work {
    void *(*body)(void *);
    void *argument;
};

static long ended;

static void sleep_for(long milliseconds)
{
    struct timespec time = {0, milliseconds * 1000000};

    nanosleep(&time, NULL);
}

int sched_yield(void)
{
    sleep_for(1);
    return 0;
}

static void *run(void *argument)
{
    struct work work = *(struct work *)argument;
    void *result;

    free(argument);
    result = work.body(work.argument);
    __atomic_fetch_add(&ended, 1, __ATOMIC_SEQ_CST);
    return result;
}

int pthread_create(pthread_t *thread, const pthread_attr_t *attributes, void *(*body)(void *),
                   void *argument)
{
    struct work *work = malloc(sizeof *work);
    const char *report = getenv("REPORT");
    creator *create;

    if (work == NULL || report == NULL)
        return EAGAIN;
    work->body = body;
    work->argument = argument;
    sleep_for(50);
    if (write(atoi(report), __atomic_load_n(&ended, __ATOMIC_SEQ_CST) == 0 ? "s" : "e", 1) != 1)
        return EAGAIN;
    /* ISO C has no cast from a pointer to an object; POSIX says that this one is right. */
    *(void **)&create = dlsym(RTLD_NEXT, "pthread_create");
    return create(thread, attributes, run, work);
}
