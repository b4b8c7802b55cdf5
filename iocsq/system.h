/* What iocsq needs of the operating system, in system_linux.c and system_windows.c; contexts.h is
 * of it too. Only these files know on which one they are. */
#ifndef IOCSQ_SYSTEM_H
#define IOCSQ_SYSTEM_H
#include <stdbool.h>
#include <stddef.h>
#include <stdint.h>
#include <stdio.h>

#ifdef _WIN32
struct iocsq_mutex {
    void *lock; /* an SRWLOCK */
};
struct iocsq_condition {
    void *variable; /* a CONDITION_VARIABLE */
};
#define IOCSQ_MUTEX { NULL } /* a free one */
#define IOCSQ_PRINTF __MINGW_PRINTF_FORMAT
#define IOCSQ_PROGRAM __ImageBase /* where the program begins in memory */
#define IOCSQ_REAL                /* arena.c: the linker has it in any case */
#else
#include <pthread.h>
struct iocsq_mutex {
    pthread_mutex_t lock;
};
struct iocsq_condition {
    pthread_cond_t variable;
};
#define IOCSQ_MUTEX { PTHREAD_MUTEX_INITIALIZER }
#define IOCSQ_PRINTF printf
#define IOCSQ_PROGRAM __executable_start
#define IOCSQ_REAL __attribute__((weak))
#endif
extern char IOCSQ_PROGRAM[];

/* No fault of the driver's. */
void iocsq_fail(const char *format, ...) __attribute__((format(IOCSQ_PRINTF, 1, 2), noreturn));

/* ---- Threads ---- */
void iocsq_begin_mutex(struct iocsq_mutex *mutex);
void iocsq_lock(struct iocsq_mutex *mutex);
bool iocsq_try_lock(struct iocsq_mutex *mutex);
void iocsq_unlock(struct iocsq_mutex *mutex);
void iocsq_begin_condition(struct iocsq_condition *condition);
void iocsq_end_condition(struct iocsq_condition *condition);
void iocsq_wait(struct iocsq_condition *condition, struct iocsq_mutex *mutex);
/* The same until a time of iocsq_time at the latest. Whether that came first. */
bool iocsq_wait_until(struct iocsq_condition *condition, struct iocsq_mutex *mutex, uint64_t time);
void iocsq_wake(struct iocsq_condition *condition);

struct iocsq_system_thread;
struct iocsq_system_thread *iocsq_begin_thread(void *(*start)(void *), void *context);
void iocsq_join_thread(struct iocsq_system_thread *thread); /* and frees it */
void iocsq_end_thread(void) __attribute__((noreturn));      /* this one */
void iocsq_let_others_run(void);

/* ---- Time, in nanoseconds ---- */
uint64_t iocsq_clock(void); /* which never goes back */
uint64_t iocsq_time(void);
void iocsq_sleep(uint64_t nanoseconds);

/* ---- Memory: zeros, of which only what is used takes any ---- */
void *iocsq_map(size_t size, const char *failure);
void *iocsq_map_shared(size_t size, const char *failure); /* with iocsq_run_apart */
void iocsq_unmap(void *at, size_t size);
/* The program's variables, but for those of its shared libraries: parts, each with its size. */
struct iocsq_part {
    char *at;
    size_t size;
};
enum { IOCSQ_PARTS = 2 };
void iocsq_find_variables(struct iocsq_part parts[IOCSQ_PARTS]);
/* Of variables.c: null: a sanitizer's are among them. And the values that they had then, also if a
 * run was left halfway. */
struct iocsq_variables;
const struct iocsq_variables *iocsq_save_variables(void);
void iocsq_forget_run(const struct iocsq_variables *before);
/* Whether the address is on the stack that this thread of the system was begun with. */
bool iocsq_is_on_thread_stack(const void *at);

/* ---- Ends ---- */
/* The status of one that was ended by iocsq_fail, or by a bad address. */
enum { IOCSQ_ABORTED = 134, IOCSQ_CRASHED = 139 };
/* Calls `act` in a process of its own, if there is such a thing, and returns that one's status as a
 * shell has it: 0 if `act` returns. Otherwise the process is this one, to whose variables the end
 * by iocsq_exit gives their values back. */
int iocsq_run_apart(void (*act)(void *of), void *of);
/* Ends the process, or what iocsq_run_apart runs in it. */
void iocsq_exit(int status) __attribute__((noreturn));
void iocsq_abort(void) __attribute__((noreturn));
void iocsq_stop(void); /* for a debugger */

void iocsq_write_error(const char *text); /* also in a signal's handler */

/* Called where the program uses a bad address, or runs for longer than it may. */
void iocsq_ask_for_policy(void);
void iocsq_report_bad_address(void);
void iocsq_report_time_over(void) __attribute__((noreturn));
void iocsq_catch_bad_addresses(void);
void iocsq_limit(unsigned seconds); /* 0: none */

/* ---- Places ---- */
int iocsq_frames(void **frames, int most); /* this thread's stack: how many there are */
bool iocsq_is_in_program(const void *at);
/* Begins addr2line with the program's addresses; null: it can't be. */
FILE *iocsq_begin_addr2line(const uintptr_t *addresses, size_t count);
void iocsq_end_addr2line(FILE *from);

#endif
