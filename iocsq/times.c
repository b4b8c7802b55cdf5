/* Times, all of the checker's clock. */
#include "internal.h"

/* In units of 100 nanoseconds. */
enum { NANOSECONDS = 100, TICK = 156250, A_SECOND = 10000000, ASKED = 1000 };
/* The system time at which the checker's clock is 0: some day of 2019. */
#define BEGINNING INT64_C(132000000000000000)

static int64_t units(void) {
    iocsq_look_at_clock();
    return (int64_t)(iocsq_now() / NANOSECONDS);
}

/* As the driver asks for it. Now and then a tick passes, since it may ask until a time has come. */
static int64_t units_of_driver(void) {
    if (iocsq_in_turns() && ++iocsq_own.asked % ASKED == 0) {
        iocsq_pass_time_in_turns((uint64_t)TICK * NANOSECONDS);
    }
    return units();
}

VOID NTAPI KeQuerySystemTime(PLARGE_INTEGER CurrentTime) {
    CurrentTime->QuadPart = BEGINNING + units_of_driver();
}

ULONGLONG NTAPI KeQueryInterruptTime(VOID) {
    return (ULONGLONG)units_of_driver();
}

ULONG NTAPI KeQueryTimeIncrement(VOID) {
    return TICK;
}

VOID IocsqQueryTickCount(PLARGE_INTEGER TickCount) {
    TickCount->QuadPart = units_of_driver() / TICK;
}

LARGE_INTEGER NTAPI KeQueryPerformanceCounter(PLARGE_INTEGER PerformanceFrequency) {
    LARGE_INTEGER now = { .QuadPart = units_of_driver() };
    if (PerformanceFrequency) {
        PerformanceFrequency->QuadPart = A_SECOND;
    }
    return now;
}

uint64_t iocsq_nanoseconds_until(LARGE_INTEGER time) {
    int64_t left = time.QuadPart <= 0 ? -time.QuadPart : time.QuadPart - BEGINNING - units();
    return left > 0 ? (uint64_t)left * NANOSECONDS : 0;
}

/* The processor's time passes, and no other thread's turn comes. */
VOID NTAPI KeStallExecutionProcessor(ULONG MicroSeconds) {
    if (iocsq_in_turns()) {
        iocsq_pass_time_in_turns((uint64_t)MicroSeconds * 1000);
    }
}
