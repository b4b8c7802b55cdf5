/*
 * Preloaded into a program: REFUSE_THREAD=N refuses its Nth call of pthread_create, from 0 on, and
 * REFUSE_ALL=1 each later one too.
 */
#define _GNU_SOURCE
#include <dlfcn.h>
#include <errno.h>
#include <pthread.h>
#include <stdlib.h>

typedef int creator(pthread_t *, const pthread_attr_t *, void *(*)(void *), void *);

static long calls;

int pthread_create(pthread_t *thread, const pthread_attr_t *attributes, void *(*body)(void *),
                   void *argument)
{
    creator *create;
    const char *at = getenv("REFUSE_THREAD");
    long call = __atomic_fetch_add(&calls, 1, __ATOMIC_SEQ_CST);

    if (at != NULL && (getenv("REFUSE_ALL") != NULL ? call >= atol(at) : call == atol(at)))
        return EAGAIN;
    /* ISO C has no cast from a pointer to an object; POSIX says that this one is right. */
    *(void **)&create = dlsym(RTLD_NEXT, "pthread_create");
    return create(thread, attributes, body, argument);
}
