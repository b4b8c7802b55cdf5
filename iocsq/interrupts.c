/* Interrupts that a driver connects, and that a test sends; and timers of the executive, over the
 * kernel's. */
#include "internal.h"

#include <stdlib.h>

/* ---- Interrupts ---- */
enum { DEVICE_IRQL_MOST = HIGH_LEVEL };

struct _KINTERRUPT {
    struct _KINTERRUPT *next; /* of those that are connected, under the state's lock */
    PKSERVICE_ROUTINE routine;
    PVOID context;
    KSPIN_LOCK own_lock;
    PKSPIN_LOCK lock; /* the driver's, or its own */
    KIRQL irql;
};
static struct _KINTERRUPT *interrupts;

NTSTATUS NTAPI IoConnectInterrupt(PKINTERRUPT *InterruptObject, PKSERVICE_ROUTINE ServiceRoutine,
                                  PVOID ServiceContext, PKSPIN_LOCK SpinLock, ULONG Vector,
                                  KIRQL Irql, KIRQL SynchronizeIrql, KINTERRUPT_MODE InterruptMode,
                                  BOOLEAN ShareVector, KAFFINITY ProcessorEnableMask,
                                  BOOLEAN FloatingSave) {
    (void)Vector, (void)InterruptMode, (void)ShareVector, (void)ProcessorEnableMask;
    (void)FloatingSave;
    iocsq_expect_irql(PASSIVE_LEVEL, "IoConnectInterrupt");
    if (Irql <= DISPATCH_LEVEL || SynchronizeIrql < Irql || SynchronizeIrql > DEVICE_IRQL_MOST) {
        iocsq_disagree(NULL, "IoConnectInterrupt with IRQL %u and SynchronizeIrql %u", Irql,
                       SynchronizeIrql);
    }
    struct _KINTERRUPT *made = iocsq_is_scarce("IoConnectInterrupt") ? NULL : malloc(sizeof *made);
    if (!made) {
        return STATUS_INSUFFICIENT_RESOURCES;
    }
    struct _KINTERRUPT interrupt = { .routine = ServiceRoutine, .context = ServiceContext,
                                     .irql = SynchronizeIrql };
    *made = interrupt;
    KeInitializeSpinLock(&made->own_lock);
    made->lock = SpinLock ? SpinLock : &made->own_lock;
    iocsq_lock_state_for(&interrupts, IOCSQ_CHANGES);
    iocsq_touch(made, IOCSQ_CHANGES | IOCSQ_RELEASES); /* its routine comes after this */
    made->next = interrupts;
    interrupts = made;
    iocsq_unlock_state();
    *InterruptObject = made;
    return STATUS_SUCCESS;
}

/* Takes it out of those that are connected. Whether it was. */
static bool disconnect(const struct _KINTERRUPT *interrupt) {
    iocsq_lock_state_for(&interrupts, IOCSQ_CHANGES);
    struct _KINTERRUPT **link = &interrupts;
    while (*link && *link != interrupt) {
        link = &(*link)->next;
    }
    bool connected = *link != NULL;
    if (connected) {
        *link = (*link)->next;
    }
    iocsq_unlock_state();
    return connected;
}

VOID NTAPI IoDisconnectInterrupt(PKINTERRUPT InterruptObject) {
    iocsq_expect_irql(PASSIVE_LEVEL, "IoDisconnectInterrupt");
    if (!disconnect(InterruptObject)) {
        iocsq_disagree(NULL, "IoDisconnectInterrupt of an interrupt that isn't connected");
    }
    /* The service routine may run: Windows waits for it. */
    KeReleaseInterruptSpinLock(InterruptObject, KeAcquireInterruptSpinLock(InterruptObject));
    free(InterruptObject);
}

void iocsq_check_interrupts_disconnected(void) {
    if (interrupts) {
        iocsq_disagree(NULL, "the driver was unloaded, and an interrupt of it is connected");
    }
}

KIRQL NTAPI KeAcquireInterruptSpinLock(PKINTERRUPT Interrupt) {
    KIRQL before = KfRaiseIrql(Interrupt->irql);
    KeAcquireSpinLockAtDpcLevel(Interrupt->lock);
    return before;
}

VOID NTAPI KeReleaseInterruptSpinLock(PKINTERRUPT Interrupt, KIRQL OldIrql) {
    KeReleaseSpinLockFromDpcLevel(Interrupt->lock);
    KeLowerIrql(OldIrql);
}

BOOLEAN NTAPI KeSynchronizeExecution(PKINTERRUPT Interrupt, PKSYNCHRONIZE_ROUTINE Routine,
                                     PVOID SynchronizeContext) {
    KIRQL before = KeAcquireInterruptSpinLock(Interrupt);
    BOOLEAN result = Routine(SynchronizeContext);
    KeReleaseInterruptSpinLock(Interrupt, before);
    return result;
}

/* The one of this number among those that are connected, the last one first. */
static struct _KINTERRUPT *connected(ULONG number) {
    iocsq_lock_state_for(&interrupts, IOCSQ_LOOKS);
    struct _KINTERRUPT *at = interrupts;
    for (; at && number > 0; number--) {
        at = at->next;
    }
    iocsq_unlock_state();
    return at;
}

BOOLEAN IocsqInterrupt(ULONG Number) {
    struct _KINTERRUPT *interrupt = connected(Number);
    if (!interrupt) {
        return FALSE;
    }
    iocsq_log(NULL, "an interrupt");
    uint32_t part = iocsq_begin_part(interrupt);
    KIRQL before = KeAcquireInterruptSpinLock(interrupt);
    BOOLEAN served = interrupt->routine(interrupt, interrupt->context);
    KeReleaseInterruptSpinLock(interrupt, before);
    iocsq_end_part(&interrupts, part);
    return served;
}

/* ---- Timers of the executive ---- */
struct _EX_TIMER {
    KTIMER timer; /* first: threads wait for it */
    KDPC dpc;
    PEXT_CALLBACK callback;
    PVOID context;
    EXT_DELETE_PARAMETERS at_end;
    bool deleted;           /* with the next under the state's lock */
    struct _EX_TIMER *next; /* of those that were deleted and aren't free yet */
};
static _Atomic uint32_t timers_allocated;
static struct _EX_TIMER *deleted_timers;

static VOID NTAPI expire(PKDPC dpc, PVOID context, PVOID first, PVOID second) {
    struct _EX_TIMER *timer = context;
    (void)dpc, (void)first, (void)second;
    if (timer->callback) {
        timer->callback(timer, timer->context);
    }
}

PEX_TIMER NTAPI ExAllocateTimer(PEXT_CALLBACK Callback, PVOID CallbackContext, ULONG Attributes) {
    struct _EX_TIMER *made = iocsq_is_scarce("ExAllocateTimer") ? NULL : calloc(1, sizeof *made);
    (void)Attributes;
    iocsq_expect_irql(DISPATCH_LEVEL, "ExAllocateTimer");
    if (made) {
        KeInitializeTimer(&made->timer);
        KeInitializeDpc(&made->dpc, expire, made);
        made->callback = Callback;
        made->context = CallbackContext;
        timers_allocated++;
    }
    return made;
}

static void expect_timer(const struct _EX_TIMER *timer, const char *call) {
    iocsq_expect_irql(DISPATCH_LEVEL, call);
    iocsq_expect_header(&timer->timer.Header, call);
    if (timer->deleted) {
        iocsq_disagree(NULL, "%s of a timer that was deleted", call);
    }
}

BOOLEAN NTAPI ExSetTimer(PEX_TIMER Timer, LONGLONG DueTime, LONGLONG Period,
                         PEXT_SET_PARAMETERS Parameters) {
    static const LONGLONG millisecond = 10000;
    LARGE_INTEGER due = { .QuadPart = DueTime };
    (void)Parameters;
    expect_timer(Timer, "ExSetTimer");
    return KeSetTimerEx(&Timer->timer, due, (LONG)((Period + millisecond - 1) / millisecond),
                        &Timer->dpc);
}

BOOLEAN NTAPI ExCancelTimer(PEX_TIMER Timer, PEXT_CANCEL_PARAMETERS Parameters) {
    (void)Parameters;
    expect_timer(Timer, "ExCancelTimer");
    return KeCancelTimer(&Timer->timer);
}

/* Takes one out that was deleted, and that expires no more, and whose callback has returned. Null:
 * there is none. */
static struct _EX_TIMER *take_over_timer(void) {
    iocsq_lock_state_for(&deleted_timers, IOCSQ_SYNC);
    struct _EX_TIMER **link = &deleted_timers;
    while (*link && ((*link)->timer.Set || iocsq_is_under_way(&(*link)->dpc))) {
        link = &(*link)->next;
    }
    struct _EX_TIMER *taken = *link;
    if (taken) {
        *link = taken->next;
    }
    iocsq_unlock_state();
    return taken;
}

void iocsq_free_deleted_timers(void) {
    struct _EX_TIMER *timer;
    while ((timer = take_over_timer()) != NULL) {
        EXT_DELETE_PARAMETERS at_end = timer->at_end;
        free(timer);
        timers_allocated--;
        if (at_end.DeleteCallback) {
            at_end.DeleteCallback(at_end.DeleteContext);
        }
    }
}

BOOLEAN NTAPI ExDeleteTimer(PEX_TIMER Timer, BOOLEAN Cancel, BOOLEAN Wait,
                            PEXT_DELETE_PARAMETERS Parameters) {
    expect_timer(Timer, "ExDeleteTimer");
    if (Wait && !Cancel) {
        iocsq_disagree(NULL, "ExDeleteTimer that waits, and doesn't cancel");
    }
    BOOLEAN was_set = Cancel && KeCancelTimer(&Timer->timer);
    iocsq_lock_state_for(&deleted_timers, IOCSQ_SYNC);
    if (Parameters) {
        Timer->at_end = *Parameters;
    }
    Timer->deleted = true;
    Timer->next = deleted_timers;
    deleted_timers = Timer;
    iocsq_unlock_state();
    if (Wait) {
        KeFlushQueuedDpcs(); /* its callback has returned then */
    }
    iocsq_free_deleted_timers();
    return was_set;
}

void iocsq_check_timers_deleted(void) {
    if (timers_allocated > 0) {
        iocsq_disagree(NULL,
                       "the driver was unloaded, and a timer of ExAllocateTimer was not deleted");
    }
}
