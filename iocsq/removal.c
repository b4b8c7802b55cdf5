/* What waits until nobody uses a device any more: remove locks and rundown protection. */
#include "internal.h"

#define TEN_SECONDS UINT64_C(10000000000)

/* ---- Remove locks: the state's lock is held for all of their fields ---- */
VOID NTAPI IoInitializeRemoveLockEx(PIO_REMOVE_LOCK Lock, ULONG AllocateTag, ULONG MaxLockedMinutes,
                                    ULONG HighWatermark, ULONG RemlockSize) {
    (void)AllocateTag, (void)MaxLockedMinutes, (void)HighWatermark, (void)RemlockSize;
    Lock->IoCount = 1;
    Lock->Removed = FALSE;
    Lock->TagCount = 0;
    KeInitializeEvent(&Lock->RemoveEvent, NotificationEvent, FALSE);
}

/* Acquires and releases commute with each other: it is the same where a tag stands. Not with what
 * waits for all releases, which changes what these look at. */
IOCSQ_ADDS static bool acquire(PIO_REMOVE_LOCK lock, PVOID tag) {
    if (lock->IoCount == 0 && !lock->Removed) {
        iocsq_disagree(NULL, "IoAcquireRemoveLock of a remove lock that was not initialized");
    }
    if (lock->Removed) {
        return false;
    }
    lock->IoCount++;
    if (lock->TagCount < IOCSQ_REMOVE_TAGS) {
        lock->Tags[lock->TagCount++] = tag;
    }
    return true;
}

NTSTATUS NTAPI IoAcquireRemoveLockEx(PIO_REMOVE_LOCK RemoveLock, PVOID Tag, PCSTR File, ULONG Line,
                                     ULONG RemlockSize) {
    (void)File, (void)Line, (void)RemlockSize;
    iocsq_point();
    iocsq_lock_state_for(RemoveLock, IOCSQ_LOOKS);
    bool may = acquire(RemoveLock, Tag);
    iocsq_unlock_state();
    return may ? STATUS_SUCCESS : STATUS_DELETE_PENDING;
}

/* One acquire with this tag is undone. Of very many acquires not all tags are known. */
IOCSQ_ADDS static void release(PIO_REMOVE_LOCK lock, PVOID tag) {
    ULONG at = 0, count = lock->TagCount;
    while (at < count && lock->Tags[at] != tag) {
        at++;
    }
    if (at < count) {
        lock->Tags[at] = lock->Tags[count - 1];
        lock->TagCount--;
    } else if (lock->IoCount - 1 == (LONG)count) {
        iocsq_disagree(iocsq_irp_at(tag),
                       "IoReleaseRemoveLock with a tag that no acquire has, or that was released");
    }
    if (--lock->IoCount == 0) {
        lock->RemoveEvent.Header.SignalState = 1;
        iocsq_state_changed();
    }
}

VOID NTAPI IoReleaseRemoveLockEx(PIO_REMOVE_LOCK RemoveLock, PVOID Tag, ULONG RemlockSize) {
    (void)RemlockSize;
    iocsq_lock_state_for(RemoveLock, IOCSQ_LOOKS | IOCSQ_RELEASES);
    release(RemoveLock, Tag);
    iocsq_unlock_state();
    iocsq_point();
}

VOID NTAPI IoReleaseRemoveLockAndWaitEx(PIO_REMOVE_LOCK RemoveLock, PVOID Tag, ULONG RemlockSize) {
    (void)RemlockSize;
    iocsq_expect_irql(PASSIVE_LEVEL, "IoReleaseRemoveLockAndWait");
    iocsq_lock_state_for(RemoveLock, IOCSQ_CHANGES);
    if (RemoveLock->Removed) {
        iocsq_disagree(NULL,
                       "IoReleaseRemoveLockAndWait of a remove lock that was waited for before");
    }
    RemoveLock->Removed = TRUE;
    release(RemoveLock, Tag);
    if (--RemoveLock->IoCount == 0) {
        RemoveLock->RemoveEvent.Header.SignalState = 1;
    }
    if (!iocsq_await(iocsq_is_signaled, &RemoveLock->RemoveEvent.Header, TEN_SECONDS,
                     "a remove lock")) {
        iocsq_disagree(iocsq_irp_at(RemoveLock->Tags[0]),
                       "IoReleaseRemoveLockAndWait waits for an acquire that is never released");
    }
    iocsq_touch(RemoveLock, IOCSQ_CHANGES | IOCSQ_ACQUIRES);
    iocsq_unlock_state();
}

/* ---- Rundown protection: the state's lock is held for the count ---- */
enum { REFUSES = 1, ACQUIRE = 2 };

VOID FASTCALL ExInitializeRundownProtection(PEX_RUNDOWN_REF RunRef) {
    RunRef->Count = 0;
    KeInitializeEvent(&RunRef->Released, NotificationEvent, FALSE);
}

/* The driver has run down what it protects, and made it anew: who acquires it later comes after
 * that. (Not after those who have released it meanwhile, so that is an object of its own.) */
VOID FASTCALL ExReInitializeRundownProtection(PEX_RUNDOWN_REF RunRef) {
    iocsq_point();
    iocsq_touch(RunRef, IOCSQ_CHANGES);
    ExInitializeRundownProtection(RunRef);
    iocsq_touch(&RunRef->Released, IOCSQ_CHANGES | IOCSQ_RELEASES);
}

/* As of a remove lock. */
IOCSQ_ADDS static bool acquire_rundown(PEX_RUNDOWN_REF of) {
    bool may = !(of->Count & REFUSES);
    of->Count += may ? ACQUIRE : 0;
    return may;
}

IOCSQ_ADDS static void release_rundown(PEX_RUNDOWN_REF of) {
    if (of->Count < ACQUIRE) {
        iocsq_disagree(NULL, "ExReleaseRundownProtection without an acquire");
    }
    of->Count -= ACQUIRE;
    if (of->Count == REFUSES) {
        of->Released.Header.SignalState = 1;
        iocsq_state_changed();
    }
}

BOOLEAN FASTCALL ExAcquireRundownProtection(PEX_RUNDOWN_REF RunRef) {
    iocsq_point();
    iocsq_lock_state_for(RunRef, IOCSQ_LOOKS);
    iocsq_touch(&RunRef->Released, IOCSQ_LOOKS | IOCSQ_ACQUIRES);
    iocsq_expect_header(&RunRef->Released.Header, "ExAcquireRundownProtection");
    bool may = acquire_rundown(RunRef);
    iocsq_unlock_state();
    return may;
}

VOID FASTCALL ExReleaseRundownProtection(PEX_RUNDOWN_REF RunRef) {
    iocsq_lock_state_for(RunRef, IOCSQ_LOOKS | IOCSQ_RELEASES);
    release_rundown(RunRef);
    iocsq_unlock_state();
    iocsq_point();
}

VOID FASTCALL ExWaitForRundownProtectionRelease(PEX_RUNDOWN_REF RunRef) {
    iocsq_expect_irql(APC_LEVEL, "ExWaitForRundownProtectionRelease");
    iocsq_expect_header(&RunRef->Released.Header, "ExWaitForRundownProtectionRelease");
    iocsq_lock_state_for(RunRef, IOCSQ_CHANGES);
    RunRef->Count |= REFUSES;
    RunRef->Released.Header.SignalState = RunRef->Count == REFUSES;
    if (!iocsq_await(iocsq_is_signaled, &RunRef->Released.Header, TEN_SECONDS,
                     "rundown protection")) {
        iocsq_disagree(
            NULL, "ExWaitForRundownProtectionRelease waits for an acquire that is never released");
    }
    iocsq_touch(RunRef, IOCSQ_CHANGES | IOCSQ_ACQUIRES);
    iocsq_unlock_state();
}

VOID FASTCALL ExRundownCompleted(PEX_RUNDOWN_REF RunRef) {
    (void)RunRef; /* it refuses already */
}
