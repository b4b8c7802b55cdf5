/* What threads wait for: events, mutexes, semaphores, timers, threads. All of it, with the table of
 * IRPs, is under one lock, the state's. */
#define _GNU_SOURCE
#include "internal.h"

enum { MUTANT = 2, SEMAPHORE = 5 }; /* beside the EVENT_TYPEs, the threads of threads.c, the timers
                                     * of deferred.c */
enum { INITIALIZED = 0x6C71 };

static struct iocsq_mutex state_mutex = IOCSQ_MUTEX;

/* A thread that waits, where threads run freely. */
struct waiter {
    struct iocsq_condition turn;
    bool (*holds)(void *);
    void *of;
    bool woken;
    struct waiter *next;
};
static struct waiter *waiters; /* the longest one first: with the next under the state's lock */
static bool changed;           /* since they were looked at */

/* ---- The state's lock ---- */
void iocsq_lock_state_for(const void *object, unsigned how) {
    iocsq_lock(&state_mutex);
    if (object) {
        iocsq_touch(object, how);
    }
}

void iocsq_lock_state(void) {
    iocsq_lock_state_for(&state_mutex, IOCSQ_CHANGES);
}

/* The first whose wait may be over. It wakes the next in its turn: what it waits for may be one's
 * alone, and all would wake for it. */
static void wake_next(void) {
    struct waiter *w = waiters;
    while (w && (w->woken || !w->holds(w->of))) {
        w = w->next;
    }
    changed = false;
    if (w) {
        w->woken = true;
        iocsq_wake(&w->turn);
    }
}

void iocsq_unlock_state(void) {
    if (changed) {
        wake_next();
    }
    iocsq_unlock(&state_mutex);
}

/* In turns each thread is asked whether it waits still (turns.c). */
void iocsq_state_changed(void) {
    if (!iocsq_in_turns()) {
        changed = true;
    }
}

uint64_t iocsq_now(void) {
    return iocsq_in_turns() ? iocsq_now_in_turns() : iocsq_clock();
}

/* Whether the wait is over, since the time is. */
static bool wait_for_turn(struct waiter *own, uint64_t nanoseconds, uint64_t until) {
    if (nanoseconds == IOCSQ_FOR_EVER) {
        iocsq_wait(&own->turn, &state_mutex);
        return false;
    }
    return iocsq_wait_until(&own->turn, &state_mutex, until);
}

static void add_waiter(struct waiter *added) {
    struct waiter **link = &waiters;
    iocsq_begin_condition(&added->turn);
    while (*link) {
        link = &(*link)->next;
    }
    *link = added;
}

static void remove_waiter(struct waiter *removed) {
    struct waiter **link = &waiters;
    while (*link != removed) {
        link = &(*link)->next;
    }
    *link = removed->next;
    iocsq_end_condition(&removed->turn);
}

static void wait_freely(bool (*holds)(void *), void *of, uint64_t nanoseconds) {
    uint64_t now = iocsq_time(), most = UINT64_MAX - now;
    uint64_t until = now + (nanoseconds < most ? nanoseconds : most);
    struct waiter own = { .holds = holds, .of = of };
    bool over = false;
    add_waiter(&own);
    while (!holds(of) && !over) {
        if (changed) {
            wake_next();
        }
        own.woken = false;
        over = wait_for_turn(&own, nanoseconds, until);
        changed = true; /* others may go on too */
    }
    remove_waiter(&own);
}

static bool await(bool (*holds)(void *), void *of, uint64_t nanoseconds, bool is_time,
                  const char *what) {
    if (nanoseconds > 0 && iocsq_in_turns()) {
        iocsq_unlock(&state_mutex);
        iocsq_wait_in_turns(holds, of, nanoseconds, is_time, what);
        iocsq_lock(&state_mutex);
    } else if (nanoseconds > 0 && !iocsq_in_turns() && !holds(of)) {
        wait_freely(holds, of, nanoseconds);
    }
    return holds(of);
}

bool iocsq_await(bool (*holds)(void *), void *of, uint64_t nanoseconds, const char *what) {
    return await(holds, of, nanoseconds, false, what);
}

bool iocsq_await_time(bool (*holds)(void *), void *of, uint64_t nanoseconds, const char *what) {
    return await(holds, of, nanoseconds, true, what);
}

static bool never(void *of) {
    (void)of;
    return false;
}

static void sleep_for(uint64_t nanoseconds, bool is_time) {
    if (iocsq_in_turns()) {
        iocsq_wait_in_turns(never, NULL, nanoseconds, is_time, "a delay");
    } else {
        iocsq_sleep(nanoseconds);
    }
}

VOID IocsqPause(ULONG Microseconds) {
    sleep_for(Microseconds * (uint64_t)1000, false);
}

/* ---- Headers ---- */
void iocsq_begin_header(DISPATCHER_HEADER *header, int type, LONG state) {
    iocsq_expect_nonpaged(header, "an object that threads wait for");
    header->Type = (UCHAR)type;
    header->Initialized = INITIALIZED;
    header->SignalState = state;
}

void iocsq_expect_header(const DISPATCHER_HEADER *header, const char *call) {
    if (header->Initialized != INITIALIZED) {
        iocsq_disagree(NULL, "%s of an object that was not initialized, or was overwritten", call);
    }
}

static LONG state_of(const DISPATCHER_HEADER *header, const char *call) {
    iocsq_expect_header(header, call);
    iocsq_lock_state_for(header, IOCSQ_LOOKS | IOCSQ_ACQUIRES);
    LONG state = header->SignalState;
    iocsq_unlock_state();
    return state;
}

/* ---- Events, mutexes, semaphores ---- */
static LONG set_signal(DISPATCHER_HEADER *header, LONG state, const char *call) {
    iocsq_expect_header(header, call);
    iocsq_point();
    iocsq_lock_state_for(header, IOCSQ_SYNC);
    LONG before = header->SignalState;
    header->SignalState = state;
    iocsq_state_changed();
    iocsq_unlock_state();
    return before;
}

VOID NTAPI KeInitializeEvent(PRKEVENT Event, EVENT_TYPE Type, BOOLEAN State) {
    iocsq_begin_header(&Event->Header, (int)Type, State);
}

LONG NTAPI KeSetEvent(PRKEVENT Event, KPRIORITY Increment, BOOLEAN Wait) {
    (void)Increment, (void)Wait;
    iocsq_log_of_driver("KeSetEvent");
    return set_signal(&Event->Header, 1, "KeSetEvent");
}

LONG NTAPI KeResetEvent(PRKEVENT Event) {
    iocsq_log_of_driver("KeResetEvent");
    return set_signal(&Event->Header, 0, "KeResetEvent");
}

VOID NTAPI KeClearEvent(PRKEVENT Event) {
    iocsq_log_of_driver("KeClearEvent");
    set_signal(&Event->Header, 0, "KeClearEvent");
}

LONG NTAPI KeReadStateEvent(PRKEVENT Event) {
    return state_of(&Event->Header, "KeReadStateEvent");
}

VOID NTAPI KeInitializeMutex(PRKMUTEX Mutex, ULONG Level) {
    (void)Level;
    iocsq_begin_header(&Mutex->Header, MUTANT, 1);
    Mutex->OwnerThread = 0;
}

LONG NTAPI KeReadStateMutex(PRKMUTEX Mutex) {
    return state_of(&Mutex->Header, "KeReadStateMutex");
}

LONG NTAPI KeReleaseMutex(PRKMUTEX Mutex, BOOLEAN Wait) {
    (void)Wait;
    iocsq_expect_header(&Mutex->Header, "KeReleaseMutex");
    iocsq_lock_state_for(&Mutex->Header, IOCSQ_SYNC);
    if (Mutex->OwnerThread != iocsq_thread()) {
        iocsq_disagree(NULL, "KeReleaseMutex by a thread that doesn't have the mutex");
    }
    LONG before = Mutex->Header.SignalState++;
    if (Mutex->Header.SignalState == 1) {
        Mutex->OwnerThread = 0;
        iocsq_forget_lock(Mutex);
    }
    iocsq_state_changed();
    iocsq_unlock_state();
    return before;
}

VOID NTAPI KeInitializeSemaphore(PRKSEMAPHORE Semaphore, LONG Count, LONG Limit) {
    if (Count < 0 || Limit < 1 || Count > Limit) {
        iocsq_disagree(NULL, "KeInitializeSemaphore with count %d and limit %d", Count, Limit);
    }
    iocsq_begin_header(&Semaphore->Header, SEMAPHORE, Count);
    Semaphore->Limit = Limit;
}

LONG NTAPI KeReadStateSemaphore(PRKSEMAPHORE Semaphore) {
    return state_of(&Semaphore->Header, "KeReadStateSemaphore");
}

LONG NTAPI KeReleaseSemaphore(PRKSEMAPHORE Semaphore, KPRIORITY Increment, LONG Adjustment,
                              BOOLEAN Wait) {
    (void)Increment, (void)Wait;
    iocsq_expect_header(&Semaphore->Header, "KeReleaseSemaphore");
    iocsq_log_of_driver("KeReleaseSemaphore");
    iocsq_lock_state_for(&Semaphore->Header, IOCSQ_SYNC);
    LONG before = Semaphore->Header.SignalState;
    if (Adjustment < 1 || Adjustment > Semaphore->Limit - before) {
        iocsq_disagree(NULL, "KeReleaseSemaphore by %d of a semaphore at %d, whose limit is %d",
                       Adjustment, before, Semaphore->Limit);
    }
    Semaphore->Header.SignalState += Adjustment;
    iocsq_state_changed();
    iocsq_unlock_state();
    return before;
}

/* ---- Waits ---- */
struct wait {
    DISPATCHER_HEADER **objects;
    ULONG count;
    WAIT_TYPE type;
    uint32_t thread;
};

static bool owns(const DISPATCHER_HEADER *header, uint32_t thread) {
    return header->Type == MUTANT && ((const KMUTANT *)(const void *)header)->OwnerThread == thread;
}

static bool is_for(const DISPATCHER_HEADER *header, uint32_t thread) {
    return header->SignalState > 0 || owns(header, thread);
}

bool iocsq_is_signaled(void *header) {
    return ((DISPATCHER_HEADER *)header)->SignalState > 0;
}

static bool is_over(void *of) {
    const struct wait *wait = of;
    ULONG signaled = 0;
    for (ULONG at = 0; at < wait->count; at++) {
        signaled += is_for(wait->objects[at], wait->thread);
    }
    return wait->type == WaitAny ? signaled > 0 : signaled == wait->count;
}

/* What a thread takes from an object as its wait for it ends. */
static void take_signal(DISPATCHER_HEADER *header) {
    if (header->Type == SynchronizationEvent || header->Type == SEMAPHORE ||
        header->Type == MUTANT) {
        header->SignalState--;
    }
    if (header->Type == MUTANT) {
        KMUTANT *mutant = (KMUTANT *)(void *)header;
        if (mutant->OwnerThread == 0) {
            iocsq_note_lock(mutant);
        }
        mutant->OwnerThread = iocsq_thread();
    }
}

static NTSTATUS end_wait(const struct wait *wait) {
    for (ULONG at = 0; at < wait->count; at++) {
        if (is_for(wait->objects[at], wait->thread)) {
            take_signal(wait->objects[at]);
            if (wait->type == WaitAny) {
                return (NTSTATUS)(STATUS_WAIT_0 + (NTSTATUS)at);
            }
        }
    }
    return STATUS_SUCCESS;
}

static uint64_t nanoseconds_of(const LARGE_INTEGER *timeout) {
    if (!timeout) {
        return IOCSQ_FOR_EVER;
    }
    return iocsq_nanoseconds_until(*timeout);
}

NTSTATUS NTAPI KeWaitForMultipleObjects(ULONG Count, PVOID Object[], WAIT_TYPE WaitType,
                                        KWAIT_REASON Reason, KPROCESSOR_MODE Mode,
                                        BOOLEAN Alertable, PLARGE_INTEGER Timeout,
                                        PKWAIT_BLOCK WaitBlockArray) {
    DISPATCHER_HEADER *objects[MAXIMUM_WAIT_OBJECTS];
    struct wait wait = { objects, Count, WaitType, iocsq_thread() };
    uint64_t nanoseconds = nanoseconds_of(Timeout);
    (void)Reason, (void)Mode, (void)Alertable, (void)WaitBlockArray;
    if (KeGetCurrentIrql() >= DISPATCH_LEVEL && nanoseconds > 0) {
        iocsq_disagree(NULL, "a wait at DISPATCH_LEVEL");
    }
    if (Count < 1 || Count > MAXIMUM_WAIT_OBJECTS) {
        iocsq_disagree(NULL, "a wait for %u objects", Count);
    }
    for (ULONG at = 0; at < Count; at++) {
        objects[at] = Object[at];
        iocsq_expect_header(objects[at], "a wait");
    }
    iocsq_point();
    iocsq_lock_state_for(NULL, 0);
    bool over = iocsq_await_time(is_over, &wait, nanoseconds, "an object");
    for (ULONG at = 0; at < Count; at++) {
        iocsq_touch(objects[at], over ? (unsigned)IOCSQ_SYNC : (unsigned)IOCSQ_LOOKS);
    }
    NTSTATUS status = over ? end_wait(&wait) : STATUS_TIMEOUT;
    iocsq_unlock_state();
    return status;
}

NTSTATUS NTAPI KeWaitForSingleObject(PVOID Object, KWAIT_REASON Reason, KPROCESSOR_MODE Mode,
                                     BOOLEAN Alertable, PLARGE_INTEGER Timeout) {
    return KeWaitForMultipleObjects(1, &Object, WaitAny, Reason, Mode, Alertable, Timeout, NULL);
}

NTSTATUS NTAPI KeDelayExecutionThread(KPROCESSOR_MODE Mode, BOOLEAN Alertable,
                                      PLARGE_INTEGER Interval) {
    (void)Mode, (void)Alertable;
    iocsq_expect_irql(APC_LEVEL, "KeDelayExecutionThread");
    sleep_for(nanoseconds_of(Interval), true);
    return STATUS_SUCCESS;
}
