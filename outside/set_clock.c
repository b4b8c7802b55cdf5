/*
 * Preloaded into a program: CLOCK_STEP=N lets N nanoseconds pass from each reading of its monotonic
 * clock to the next, and CLOCK_FAILS=1 lets each reading fail. Other clocks are read as ever.
 */
#define _GNU_SOURCE
#include <dlfcn.h>
#include <errno.h>
#include <stdlib.h>
#include <time.h>

typedef int reader(clockid_t, struct timespec *);

static long readings;

int clock_gettime(clockid_t clock, struct timespec *now)
{
    reader *read_clock;
    const char *step = getenv("CLOCK_STEP");
    long long passed;

    if (clock == CLOCK_MONOTONIC && getenv("CLOCK_FAILS") != NULL) {
        errno = EINVAL;
        return -1;
    }
    if (clock == CLOCK_MONOTONIC && step != NULL) {
        passed = __atomic_fetch_add(&readings, 1, __ATOMIC_SEQ_CST) * atoll(step);
        now->tv_sec = (time_t)(passed / 1000000000);
        now->tv_nsec = (long)(passed % 1000000000);
        return 0;
    }
    /* ISO C has no cast from a pointer to an object; POSIX says that this one is right. */
    *(void **)&read_clock = dlsym(RTLD_NEXT, "clock_gettime");
    return read_clock(clock, now);
}
