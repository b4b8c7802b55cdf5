/* What runs later: timers and DPCs, on a thread that stands for the processor. The state's lock is
 * held for all of it, but not while a routine of the driver runs. */
#include "internal.h"

enum { TIMER = 8, DPC = 19 }; /* a timer's type is TIMER + its TIMER_TYPE */
#define MILLISECOND UINT64_C(1000000)
#define SOON (100 * MILLISECOND)

static KTIMER *timers; /* that are set */
static bool timers_changed;
static KDPC *first_dpc, *last_dpc;
static const KDPC *running_dpc;
/* The memory in which it is, where another thread has freed that; 0: none has. It may, once the
 * routine doesn't use it any more, as where they count references. */
static _Atomic uintptr_t freed_from;
static _Atomic size_t freed_size;
static IOCSQ_THREAD processor;
static bool ending;

/* ---- The processor ---- */
static bool queue_dpc(KDPC *dpc) {
    if (dpc->Queued) {
        return false;
    }
    dpc->Queued = TRUE;
    dpc->Next = NULL;
    *(first_dpc ? &last_dpc->Next : &first_dpc) = dpc;
    last_dpc = dpc;
    iocsq_state_changed();
    return true;
}

/* Takes a timer out of those that are set. Whether it was. */
static bool unset(KTIMER *timer) {
    KTIMER **at = &timers;
    while (*at && *at != timer) {
        at = &(*at)->Next;
    }
    if (!*at) {
        return false;
    }
    *at = timer->Next;
    timer->Set = FALSE;
    return true;
}

static void set(KTIMER *timer, uint64_t due) {
    timer->DueTime = due;
    timer->Set = TRUE;
    timer->Next = timers;
    timers = timer;
    timers_changed = true;
    iocsq_state_changed();
}

static KTIMER *next_timer(void) {
    KTIMER *soonest = timers;
    for (KTIMER *at = timers; at; at = at->Next) {
        soonest = at->DueTime < soonest->DueTime ? at : soonest;
    }
    return soonest;
}

static void expire_timers(void) {
    KTIMER *timer;
    while ((timer = next_timer()) != NULL && timer->DueTime <= iocsq_now()) {
        unset(timer);
        iocsq_touch(&timer->Header, IOCSQ_CHANGES);
        timer->Header.SignalState = 1;
        if (timer->Period > 0) {
            set(timer, timer->DueTime + (uint64_t)timer->Period * MILLISECOND);
        }
        if (timer->Dpc && queue_dpc(timer->Dpc)) {
            timer->Dpc->Periodic = timer->Period > 0;
        }
        iocsq_state_changed();
    }
}

void iocsq_begin_routine(const char *what) {
    iocsq_point();
    iocsq_log(NULL, "%s", what);
    iocsq_own.during = what;
}

/* It has made its last call, and has yet to return. If that completed the last request, its driver
 * may be unloaded meanwhile, unless the unload waits for it. While more file objects are open
 * nothing is drawn here. */
void iocsq_end_routine(const char *what, KIRQL level) {
    iocsq_own.during = NULL;
    iocsq_hand_let_go();
    if (iocsq_open_files() <= 1) {
        iocsq_long_point(2);
    }
    if (KeGetCurrentIrql() != level) {
        iocsq_disagree(NULL, "%s returns at IRQL %u", what, KeGetCurrentIrql());
    }
    if (iocsq_lock_count() > 0) {
        iocsq_disagree(NULL, "%s returns with a lock", what);
    }
}

static void run_first_dpc(void) {
    KDPC *dpc = first_dpc, call = *dpc; /* its routine may free it */
    first_dpc = dpc->Next;
    dpc->Queued = FALSE;
    running_dpc = dpc;
    uint32_t part = iocsq_begin_part(dpc);
    iocsq_unlock_state();
    iocsq_begin_routine("a DPC");
    iocsq_set_irql(DISPATCH_LEVEL);
    call.DeferredRoutine(dpc, call.DeferredContext, call.SystemArgument1, call.SystemArgument2);
    freed_from = 0;
    iocsq_end_routine("a DPC", DISPATCH_LEVEL);
    iocsq_set_irql(PASSIVE_LEVEL);
    if (call.Periodic) { /* the timer stays on its processor, and its next DPC comes after this */
        iocsq_touch(dpc, IOCSQ_LOOKS | IOCSQ_RELEASES);
    }
    iocsq_end_part(&running_dpc, part);
    iocsq_lock_state_for(&first_dpc, IOCSQ_CHANGES);
    running_dpc = NULL;
    iocsq_state_changed();
    iocsq_unlock_state();
    iocsq_free_deleted_timers();
    iocsq_lock_state_for(&first_dpc, IOCSQ_CHANGES);
}

bool iocsq_is_under_way(const KDPC *dpc) {
    return dpc->Queued || running_dpc == dpc;
}

static bool has_processor_work(void *of) {
    (void)of;
    return first_dpc || timers_changed || ending;
}

/* Until the next timer is due, in nanoseconds. The wait looks at the clock. */
static uint64_t time_to_timer(void) {
    const KTIMER *next = next_timer();
    uint64_t now = next ? iocsq_now() : 0;
    return !next ? IOCSQ_FOR_EVER : next->DueTime > now ? next->DueTime - now : 0;
}

static void *run_processor(void *of) {
    iocsq_own.is_processor = true;
    iocsq_lock_state_for(&timers, IOCSQ_CHANGES);
    while (!ending) {
        timers_changed = false; /* here alone: who cancels a timer doesn't wait for the others */
        iocsq_touch(&timers, IOCSQ_CHANGES);
        iocsq_await_time(has_processor_work, NULL, time_to_timer(), "a timer or a DPC");
        iocsq_touch(&timers, IOCSQ_CHANGES);
        iocsq_touch(&first_dpc, IOCSQ_CHANGES);
        iocsq_look_at_clock();
        expire_timers();
        if (first_dpc) {
            run_first_dpc();
        }
    }
    iocsq_unlock_state();
    return of;
}

static void need_processor(void) {
    if (!processor) {
        processor = IocsqThread(run_processor, NULL);
    }
}

/* ---- DPCs ---- */
VOID NTAPI KeInitializeDpc(PRKDPC Dpc, PKDEFERRED_ROUTINE DeferredRoutine, PVOID DeferredContext) {
    KDPC dpc = { DPC, NULL, DeferredRoutine, DeferredContext, NULL, NULL, FALSE, FALSE };
    iocsq_expect_nonpaged(Dpc, "a DPC");
    *Dpc = dpc;
}

static void expect_dpc(const KDPC *dpc, const char *call) {
    if (dpc->Type != DPC) {
        iocsq_disagree(NULL, "%s of a DPC that was not initialized, or was overwritten", call);
    }
}

/* As a DPC's routine whose arguments have other types: it is called with these in their place. */
VOID IocsqInitializeDpcRequest(PKDPC Dpc, PIO_DPC_ROUTINE DpcRoutine, PDEVICE_OBJECT DeviceObject) {
    void (*routine)(void) = (void (*)(void))DpcRoutine;
    KeInitializeDpc(Dpc, (PKDEFERRED_ROUTINE)routine, DeviceObject);
}

BOOLEAN NTAPI KeInsertQueueDpc(PRKDPC Dpc, PVOID SystemArgument1, PVOID SystemArgument2) {
    expect_dpc(Dpc, "KeInsertQueueDpc");
    iocsq_log_of_driver("KeInsertQueueDpc");
    iocsq_lock_state_for(&first_dpc, IOCSQ_CHANGES);
    iocsq_touch(Dpc, IOCSQ_CHANGES | IOCSQ_RELEASES);
    need_processor();
    bool queued = queue_dpc(Dpc);
    if (queued) {
        Dpc->Periodic = FALSE;
        Dpc->SystemArgument1 = SystemArgument1;
        Dpc->SystemArgument2 = SystemArgument2;
    }
    iocsq_unlock_state();
    return queued;
}

BOOLEAN NTAPI KeRemoveQueueDpc(PRKDPC Dpc) {
    expect_dpc(Dpc, "KeRemoveQueueDpc");
    iocsq_lock_state_for(&first_dpc, IOCSQ_CHANGES);
    iocsq_touch(Dpc, IOCSQ_SYNC);
    bool queued = Dpc->Queued;
    for (KDPC *at = first_dpc, *before = NULL; queued && at; before = at, at = at->Next) {
        if (at == Dpc) {
            *(before ? &before->Next : &first_dpc) = at->Next;
            last_dpc = at == last_dpc ? before : last_dpc;
        }
    }
    Dpc->Queued = FALSE;
    iocsq_unlock_state();
    return queued;
}

static bool no_dpc(void *of) {
    (void)of;
    return !first_dpc && !running_dpc;
}

VOID NTAPI KeFlushQueuedDpcs(VOID) {
    iocsq_expect_irql(PASSIVE_LEVEL, "KeFlushQueuedDpcs");
    iocsq_lock_state_for(NULL, 0);
    iocsq_await(no_dpc, NULL, IOCSQ_FOR_EVER, "the DPCs");
    iocsq_touch(&first_dpc, IOCSQ_CHANGES);
    iocsq_touch(&running_dpc, IOCSQ_ACQUIRES);
    iocsq_unlock_state();
}

/* ---- Timers ---- */
VOID NTAPI KeInitializeTimerEx(PKTIMER Timer, TIMER_TYPE Type) {
    KTIMER timer = { .Next = NULL };
    *Timer = timer;
    iocsq_begin_header(&Timer->Header, TIMER + (int)Type, 0);
}

VOID NTAPI KeInitializeTimer(PKTIMER Timer) {
    KeInitializeTimerEx(Timer, NotificationTimer);
}

BOOLEAN NTAPI KeSetTimerEx(PKTIMER Timer, LARGE_INTEGER DueTime, LONG Period, PKDPC Dpc) {
    iocsq_expect_header(&Timer->Header, "KeSetTimer");
    if (Dpc) {
        expect_dpc(Dpc, "KeSetTimer with one");
    }
    iocsq_log_of_driver("KeSetTimer");
    iocsq_lock_state_for(&timers, IOCSQ_CHANGES);
    iocsq_touch(&Timer->Header, IOCSQ_SYNC);
    if (Dpc) {
        iocsq_touch(Dpc, IOCSQ_CHANGES | IOCSQ_RELEASES);
    }
    iocsq_pass_time_of_call();
    iocsq_look_at_clock();
    need_processor();
    bool was_set = unset(Timer);
    Timer->Header.SignalState = 0;
    Timer->Period = Period;
    Timer->Dpc = Dpc;
    set(Timer, iocsq_now() + iocsq_nanoseconds_until(DueTime));
    iocsq_unlock_state();
    return was_set;
}

BOOLEAN NTAPI KeSetTimer(PKTIMER Timer, LARGE_INTEGER DueTime, PKDPC Dpc) {
    return KeSetTimerEx(Timer, DueTime, 0, Dpc);
}

/* In turns it is drawn whether the clock came just before: what a driver has to reckon with as it
 * cancels a timer. */
static void draw_expiry(const KTIMER *timer) {
    uint64_t now = iocsq_now();
    if (iocsq_in_turns() && timer->Set && timer->DueTime > now && timer->DueTime - now < SOON &&
        iocsq_rarely(2)) {
        iocsq_pass_time_in_turns(timer->DueTime - now);
    }
    expire_timers();
}

BOOLEAN NTAPI KeCancelTimer(PKTIMER Timer) {
    iocsq_expect_header(&Timer->Header, "KeCancelTimer");
    iocsq_log_of_driver("KeCancelTimer");
    iocsq_point();
    iocsq_lock_state_for(&timers, IOCSQ_CHANGES);
    iocsq_touch(&Timer->Header, IOCSQ_SYNC);
    iocsq_touch(&first_dpc, IOCSQ_CHANGES);
    iocsq_look_at_clock();
    draw_expiry(Timer);
    bool was_set = unset(Timer);
    iocsq_unlock_state();
    return was_set;
}

BOOLEAN NTAPI KeReadStateTimer(PKTIMER Timer) {
    iocsq_lock_state_for(&Timer->Header, IOCSQ_LOOKS | IOCSQ_ACQUIRES);
    bool signaled = iocsq_is_signaled(&Timer->Header);
    iocsq_unlock_state();
    return signaled;
}

/* ---- Ends ---- */
static bool lies_in(const void *at, const void *from, size_t size) {
    return (uintptr_t)at - (uintptr_t)from < size;
}

/* The report names this DPC's routine; null: none. */
static void blame(const KDPC *dpc) {
    iocsq_own.blamed = dpc ? (uintptr_t)dpc->DeferredRoutine : 0;
}

void iocsq_check_no_deferred(const void *from, size_t size, const char *what) {
    iocsq_lock_state_for(&timers, IOCSQ_LOOKS);
    iocsq_touch(&first_dpc, IOCSQ_LOOKS);
    for (const KTIMER *at = timers; at; at = at->Next) {
        if (lies_in(at, from, size)) {
            blame(at->Dpc);
            iocsq_disagree(NULL, "%s, and a timer in it is set", what);
        }
    }
    for (const KDPC *at = first_dpc; at; at = at->Next) {
        if (lies_in(at, from, size)) {
            blame(at);
            iocsq_disagree(NULL, "%s, and a DPC in it is queued", what);
        }
    }
    iocsq_check_no_work(from, size, what);
    iocsq_unlock_state();
}

/* Whether a DPC in it runs, on another thread. The state's lock is held. */
static bool is_run_in(const void *from, size_t size) {
    return running_dpc && !iocsq_own.is_processor && lies_in(running_dpc, from, size);
}

void iocsq_check_no_running(const void *from, size_t size, const char *what) {
    iocsq_lock_state_for(&first_dpc, IOCSQ_LOOKS);
    if (is_run_in(from, size)) {
        blame(running_dpc);
        iocsq_disagree(NULL, "%s, and a DPC in it runs", what);
    }
    iocsq_unlock_state();
}

void iocsq_note_freed(const void *from, size_t size) {
    iocsq_lock_state_for(&first_dpc, IOCSQ_LOOKS);
    if (is_run_in(from, size)) {
        freed_size = size;
        freed_from = (uintptr_t)from;
    }
    iocsq_unlock_state();
}

void iocsq_expect_not_freed(const volatile void *at) {
    uintptr_t from = freed_from;
    if (from != 0 && (uintptr_t)at - from < freed_size) {
        iocsq_disagree(NULL, "a DPC uses the memory in which it is, which another thread has freed "
                             "meanwhile");
    }
}

/* After the driver was unloaded: nothing of it may run later any more. */
void iocsq_end_deferred(void) {
    iocsq_check_no_deferred(NULL, SIZE_MAX, "the driver was unloaded");
    iocsq_check_no_running(NULL, SIZE_MAX, "the driver was unloaded");
    iocsq_lock_state_for(&timers, IOCSQ_CHANGES);
    iocsq_touch(&first_dpc, IOCSQ_CHANGES);
    ending = true;
    iocsq_state_changed();
    iocsq_unlock_state();
    if (processor) {
        IocsqJoin(processor);
    }
    processor = NULL; /* another driver, loaded after this one, begins anew */
    ending = false;
}
