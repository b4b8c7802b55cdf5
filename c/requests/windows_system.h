/* What csq_requests.h's code asks of its system (system.h), of Windows 7 or later. There are no
 * eventfds: none can be made. */
#ifndef WINDOWS_SYSTEM_H
#define WINDOWS_SYSTEM_H

#ifndef _WIN32_WINNT
#define _WIN32_WINNT 0x0601
#endif
#ifndef WIN32_LEAN_AND_MEAN
#define WIN32_LEAN_AND_MEAN
#endif
#include <windows.h>

#include <process.h>
#include <stdint.h>
#include <time.h>

typedef SRWLOCK system_mutex;
typedef CONDITION_VARIABLE system_signal;
typedef HANDLE system_thread;
#define SYSTEM_RUN unsigned __stdcall /* what a thread's function returns, and how it is called */

/* ---- A mutex ---- */

static inline int system_make_mutex(system_mutex *mutex) {
    InitializeSRWLock(mutex);
    return 1;
}

static inline void system_unmake_mutex(system_mutex *mutex) {
    (void)mutex;
}

static inline int system_try_lock(system_mutex *mutex) {
    return TryAcquireSRWLockExclusive(mutex) != 0;
}

static inline void system_lock(system_mutex *mutex) {
    AcquireSRWLockExclusive(mutex);
}

static inline void system_unlock(system_mutex *mutex) {
    ReleaseSRWLockExclusive(mutex);
}

/* ---- The clock, which nobody sets, and threads ---- */

static inline struct timespec system_now(void) {
    struct timespec now = { 0, 0 };
    LARGE_INTEGER ticks, second;
    QueryPerformanceCounter(&ticks);
    QueryPerformanceFrequency(&second);
    now.tv_sec = (time_t)(ticks.QuadPart / second.QuadPart);
    now.tv_nsec = (long)(ticks.QuadPart % second.QuadPart * 1000000000 / second.QuadPart);
    return now;
}

static inline void system_yield(void) {
    SwitchToThread();
}

static inline int system_start(system_thread *thread, unsigned(__stdcall *run)(void *), void *of) {
    *thread = (HANDLE)_beginthreadex(NULL, 0, run, of, 0, NULL);
    return *thread != NULL;
}

static inline void system_join(system_thread thread) {
    WaitForSingleObject(thread, INFINITE);
    CloseHandle(thread);
}

/* ---- Signals ---- */

static inline int system_make_signals(system_signal *one, system_signal *other) {
    InitializeConditionVariable(one);
    InitializeConditionVariable(other);
    return 1;
}

static inline void system_unmake_signal(system_signal *it) {
    (void)it;
}

static inline void system_wake(system_signal *it) {
    WakeConditionVariable(it);
}

static inline void system_wake_all(system_signal *it) {
    WakeAllConditionVariable(it);
}

/* How many milliseconds are left until a time, rounded up. */
static inline DWORD system_left(const struct timespec *end) {
    const struct timespec now = system_now();
    const int64_t left = ((int64_t)end->tv_sec - (int64_t)now.tv_sec) * 1000 +
                         (end->tv_nsec - now.tv_nsec + 999999) / 1000000;
    return left <= 0 ? 0 : left < INFINITE ? (DWORD)left : INFINITE - 1;
}

/* A sleep may end before its time, and counts as woken then. */
static inline int system_sleep(system_signal *it, system_mutex *mutex, const struct timespec *end) {
    const DWORD left = end ? system_left(end) : INFINITE;
    return !SleepConditionVariableSRW(it, mutex, left, 0) && end && system_left(end) == 0;
}

/* ---- Eventfds ---- */

static inline int system_make_fd(void) {
    return -1;
}

static inline void system_close_fd(int fd) {
    (void)fd;
}

static inline void system_raise_fd(int fd) {
    (void)fd;
}

static inline int system_lower_fd(int fd, uint64_t *count) {
    (void)fd;
    *count = 0;
    return 0;
}

#endif
