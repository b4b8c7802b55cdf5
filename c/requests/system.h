/* What the code of csq_requests.h asks of its system: a mutex, signals, a clock, a thread, and
 * eventfds. What makes something returns whether it was made. */
#ifndef SYSTEM_H
#define SYSTEM_H

#ifdef _WIN32
#include "windows_system.h"
#else

#ifndef _POSIX_C_SOURCE
#define _POSIX_C_SOURCE 200809L
#endif
#include <errno.h>
#include <pthread.h>
#include <sched.h>
#include <signal.h>
#include <stdint.h>
#include <sys/eventfd.h>
#include <time.h>
#include <unistd.h>

typedef pthread_mutex_t system_mutex;
typedef pthread_cond_t system_signal;
typedef pthread_t system_thread;
#define SYSTEM_RUN void * /* what a thread's function returns */

/* ---- A mutex ---- */

static inline int system_make_mutex(system_mutex *mutex) {
    return pthread_mutex_init(mutex, NULL) == 0;
}

static inline void system_unmake_mutex(system_mutex *mutex) {
    pthread_mutex_destroy(mutex);
}

static inline int system_try_lock(system_mutex *mutex) {
    return pthread_mutex_trylock(mutex) == 0;
}

static inline void system_lock(system_mutex *mutex) {
    pthread_mutex_lock(mutex);
}

static inline void system_unlock(system_mutex *mutex) {
    pthread_mutex_unlock(mutex);
}

/* ---- Signals ---- */

/* Makes two, which tell the time by the clock of system_now, or none. */
static inline int system_make_signals(system_signal *one, system_signal *other) {
    pthread_condattr_t monotonic;
    int made = 0;
    if (pthread_condattr_init(&monotonic) != 0) {
        return 0;
    }
    pthread_condattr_setclock(&monotonic, CLOCK_MONOTONIC);
    if (pthread_cond_init(one, &monotonic) == 0) {
        made = pthread_cond_init(other, &monotonic) == 0;
        if (!made) {
            pthread_cond_destroy(one);
        }
    }
    pthread_condattr_destroy(&monotonic);
    return made;
}

static inline void system_unmake_signal(system_signal *it) {
    pthread_cond_destroy(it);
}

static inline void system_wake(system_signal *it) {
    pthread_cond_signal(it);
}

static inline void system_wake_all(system_signal *it) {
    pthread_cond_broadcast(it);
}

/* Sleeps until the signal, or until this time unless it is NULL. Returns whether that is over. */
static inline int system_sleep(system_signal *it, system_mutex *mutex, const struct timespec *end) {
    if (end) {
        return pthread_cond_timedwait(it, mutex, end) == ETIMEDOUT;
    }
    pthread_cond_wait(it, mutex);
    return 0;
}

/* ---- The clock, which nobody sets, and threads ---- */

static inline struct timespec system_now(void) {
    struct timespec now = { 0, 0 };
    clock_gettime(CLOCK_MONOTONIC, &now);
    return now;
}

static inline void system_yield(void) {
    sched_yield();
}

/* Starts a thread that takes no signals: they are for the threads of the program. */
static inline int system_start(system_thread *thread, SYSTEM_RUN (*run)(void *), void *of) {
    sigset_t all, before;
    int failure;
    sigfillset(&all);
    failure = pthread_sigmask(SIG_SETMASK, &all, &before);
    if (failure == 0) {
        failure = pthread_create(thread, NULL, run, of);
        (void)pthread_sigmask(SIG_SETMASK, &before, NULL);
    }
    return failure == 0;
}

static inline void system_join(system_thread thread) {
    pthread_join(thread, NULL);
}

/* ---- Eventfds ---- */

/* Returns its number, or -1. */
static inline int system_make_fd(void) {
    return eventfd(0, EFD_CLOEXEC | EFD_NONBLOCK);
}

static inline void system_close_fd(int fd) {
    close(fd);
}

/* Adds 1. It is never refused: the number is far from its end. */
static inline void system_raise_fd(int fd) {
    const uint64_t one = 1;
    ssize_t written = write(fd, &one, sizeof one);
    (void)written;
}

/* Stores the number, which is 0 from then on. Returns whether there was one. */
static inline int system_lower_fd(int fd, uint64_t *count) {
    return read(fd, count, sizeof *count) == (ssize_t)sizeof *count;
}

#endif
#endif
