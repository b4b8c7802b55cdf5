/* Linux, by POSIX and glibc. */
#define _GNU_SOURCE
#include "system.h"

#ifndef _WIN32
#include <errno.h>
#include <execinfo.h>
#include <link.h>
#include <sched.h>
#include <signal.h>
#include <stdlib.h>
#include <string.h>
#include <sys/mman.h>
#include <sys/wait.h>
#include <time.h>
#include <unistd.h>

enum { SECOND = 1000000000 };

/* ---- Threads ---- */
void iocsq_begin_mutex(struct iocsq_mutex *mutex) {
    pthread_mutex_init(&mutex->lock, NULL);
}

void iocsq_lock(struct iocsq_mutex *mutex) {
    pthread_mutex_lock(&mutex->lock);
}

bool iocsq_try_lock(struct iocsq_mutex *mutex) {
    return pthread_mutex_trylock(&mutex->lock) == 0;
}

void iocsq_unlock(struct iocsq_mutex *mutex) {
    pthread_mutex_unlock(&mutex->lock);
}

void iocsq_begin_condition(struct iocsq_condition *condition) {
    pthread_cond_init(&condition->variable, NULL);
}

void iocsq_end_condition(struct iocsq_condition *condition) {
    pthread_cond_destroy(&condition->variable);
}

void iocsq_wait(struct iocsq_condition *condition, struct iocsq_mutex *mutex) {
    pthread_cond_wait(&condition->variable, &mutex->lock);
}

static struct timespec timespec_of(uint64_t nanoseconds) {
    struct timespec made = { (time_t)(nanoseconds / SECOND), (long)(nanoseconds % SECOND) };
    return made;
}

bool iocsq_wait_until(struct iocsq_condition *condition, struct iocsq_mutex *mutex, uint64_t time) {
    struct timespec until = timespec_of(time);
    return pthread_cond_timedwait(&condition->variable, &mutex->lock, &until) == ETIMEDOUT;
}

void iocsq_wake(struct iocsq_condition *condition) {
    pthread_cond_signal(&condition->variable);
}

struct iocsq_system_thread {
    pthread_t id;
};

struct iocsq_system_thread *iocsq_begin_thread(void *(*start)(void *), void *context) {
    struct iocsq_system_thread *thread = malloc(sizeof *thread);
    if (!thread || pthread_create(&thread->id, NULL, start, context) != 0) {
        iocsq_fail("a thread wasn't started");
    }
    return thread;
}

void iocsq_join_thread(struct iocsq_system_thread *thread) {
    pthread_join(thread->id, NULL);
    free(thread);
}

void iocsq_end_thread(void) {
    pthread_exit(NULL);
}

void iocsq_let_others_run(void) {
    sched_yield();
}

/* ---- Time ---- */
static uint64_t nanoseconds_of(clockid_t clock) {
    struct timespec now;
    clock_gettime(clock, &now);
    return (uint64_t)now.tv_sec * SECOND + (uint64_t)now.tv_nsec;
}

uint64_t iocsq_clock(void) {
    return nanoseconds_of(CLOCK_MONOTONIC);
}

uint64_t iocsq_time(void) {
    return nanoseconds_of(CLOCK_REALTIME);
}

void iocsq_sleep(uint64_t nanoseconds) {
    struct timespec delay = timespec_of(nanoseconds);
    nanosleep(&delay, NULL);
}

/* ---- Memory ---- */
static void *map(size_t size, int how, const char *failure) {
    void *made =
        mmap(NULL, size, PROT_READ | PROT_WRITE, how | MAP_ANONYMOUS | MAP_NORESERVE, -1, 0);
    if (made == MAP_FAILED) {
        iocsq_fail("%s", failure);
    }
    return made;
}

void *iocsq_map(size_t size, const char *failure) {
    return map(size, MAP_PRIVATE, failure);
}

void *iocsq_map_shared(size_t size, const char *failure) {
    return map(size, MAP_SHARED, failure);
}

void iocsq_unmap(void *at, size_t size) {
    munmap(at, size);
}

/* Of the C library and the linker. */
extern char __data_start[], _end[];

void iocsq_find_variables(struct iocsq_part parts[IOCSQ_PARTS]) {
    struct iocsq_part all = { __data_start, (size_t)((uintptr_t)_end - (uintptr_t)__data_start) };
    struct iocsq_part none = { _end, 0 };
    parts[0] = all;
    parts[1] = none;
}

bool iocsq_is_on_thread_stack(const void *at) {
    static _Thread_local char *from;
    static _Thread_local size_t size;
    if (!from) {
        pthread_attr_t of;
        void *lowest;
        if (pthread_getattr_np(pthread_self(), &of) != 0 ||
            pthread_attr_getstack(&of, &lowest, &size) != 0) {
            iocsq_fail("a thread's stack isn't known");
        }
        pthread_attr_destroy(&of);
        from = lowest;
    }
    return (uintptr_t)at - (uintptr_t)from < size;
}

/* ---- Ends ---- */
static int status_of(pid_t child) {
    int status;
    while (child < 0 || waitpid(child, &status, 0) < 0) {
        if (child < 0 || errno != EINTR) {
            iocsq_fail("no process for a run");
        }
    }
    return WIFEXITED(status) ? WEXITSTATUS(status) : 128 + WTERMSIG(status); /* as a shell has it */
}

int iocsq_run_apart(void (*act)(void *of), void *of) {
    fflush(NULL); /* what is buffered isn't each process's */
    pid_t child = fork();
    if (child == 0) {
        act(of);
        _exit(0);
    }
    return status_of(child);
}

void iocsq_exit(int status) {
    _exit(status);
}

void iocsq_abort(void) {
    abort();
}

void iocsq_write_error(const char *text) {
    if (write(STDERR_FILENO, text, strlen(text)) < 0) {
        iocsq_exit(IOCSQ_ABORTED);
    }
}

void iocsq_stop(void) {
    raise(SIGTRAP);
}

/* The text of a report is written first, since nothing else is safe in a signal's handler. */
static struct sigaction before_segv, before_bus; /* a sanitizer's, or the default */

static void on_bad_address(int signal_number) {
    const struct sigaction *before = signal_number == SIGBUS ? &before_bus : &before_segv;
    iocsq_ask_for_policy();
    sigaction(signal_number, before, NULL);
    if (before->sa_handler != SIG_DFL) {
        return; /* to the bad address again, for the sanitizer's own report */
    }
    iocsq_report_bad_address();
    raise(signal_number);
}

/* The bounded mode puts the program's variables back between runs in one process, and the handler
 * stays: it isn't its own predecessor, to which it would return for ever. */
static void catch_signal(int signal_number, struct sigaction *before) {
    struct sigaction action = { .sa_handler = on_bad_address }, was;
    if (sigaction(signal_number, &action, &was) == 0 && was.sa_handler != on_bad_address) {
        *before = was;
    }
}

void iocsq_catch_bad_addresses(void) {
    void *frame;
    backtrace(&frame, 1); /* the first one loads a library, which isn't for a signal's handler */
    catch_signal(SIGSEGV, &before_segv);
    catch_signal(SIGBUS, &before_bus);
}

static void on_time_over(int signal_number) {
    signal(signal_number, SIG_DFL);
    iocsq_report_time_over();
}

void iocsq_limit(unsigned seconds) {
    signal(SIGALRM, on_time_over);
    alarm(seconds);
}

/* ---- Places ---- */
int iocsq_frames(void **frames, int most) {
    return backtrace(frames, most);
}

extern char __executable_start[], etext[];

bool iocsq_is_in_program(const void *at) {
    return (uintptr_t)at >= (uintptr_t)__executable_start && (uintptr_t)at < (uintptr_t)etext;
}

/* The program itself is the first that is named. */
static int note_program(struct dl_phdr_info *info, size_t size, void *base) {
    (void)size;
    *(uintptr_t *)base = info->dlpi_addr;
    return 1;
}

enum { COMMAND = 2048, ADDRESS = 24 };

FILE *iocsq_begin_addr2line(const uintptr_t *addresses, size_t count) {
    char command[COMMAND];
    uintptr_t base = 0;
    int used = snprintf(command, COMMAND, "2>/dev/null addr2line -a -f -i -e /proc/%ld/exe",
                        (long)getpid());
    dl_iterate_phdr(note_program, &base);
    for (size_t at = 0; at < count && used < COMMAND - ADDRESS; at++) {
        used += snprintf(command + used, (size_t)(COMMAND - used), " 0x%lx", addresses[at] - base);
    }
    return popen(command, "r");
}

void iocsq_end_addr2line(FILE *from) {
    if (from) {
        pclose(from);
    }
}
#endif
