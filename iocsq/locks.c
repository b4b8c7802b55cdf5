/* Spin locks, fast mutexes, the system's cancel spin lock, lists under a spin lock. */
#include "internal.h"

enum { THREADS = 1024, HANDLES = 64 };
enum { YIELDS = 32, PAUSE = 20 }; /* a thread that runs freely and waits yields this often, then
                                   * pauses for microseconds, since the lock's owner may sleep */
#define UNTAKEN 0x6C6F636Bu /* the word of a lock that nobody has, once it is initialized */

uint32_t iocsq_lock_count(void) {
    return iocsq_own.lock_count;
}

uint32_t iocsq_spin_lock_count(void) {
    return iocsq_own.spin_lock_count;
}

const void *iocsq_last_lock(void) {
    return iocsq_own.lock_count ? iocsq_own.locks[iocsq_own.lock_count - 1] : NULL;
}

bool iocsq_has_lock(const void *lock) {
    for (uint32_t at = 0; at < iocsq_own.lock_count; at++) {
        if (iocsq_own.locks[at] == lock) {
            return true;
        }
    }
    return false;
}

void iocsq_note_lock(const void *lock) {
    if (iocsq_own.lock_count == IOCSQ_LOCKS) {
        iocsq_disagree(NULL, "more than %u locks are held", (unsigned)IOCSQ_LOCKS);
    }
    iocsq_own.locks[iocsq_own.lock_count++] = lock;
}

void iocsq_forget_lock(const void *lock) {
    uint32_t at = iocsq_own.lock_count;
    while (at > 0 && iocsq_own.locks[at - 1] != lock) {
        at--;
    }
    if (at == 0) {
        iocsq_disagree(NULL, "a lock is released that this thread does not have");
    }
    for (; at < iocsq_own.lock_count; at++) {
        iocsq_own.locks[at - 1] = iocsq_own.locks[at];
    }
    iocsq_own.lock_count--;
    iocsq_own.watch.releases += lock == iocsq_own.watch.lock;
    if (iocsq_own.lock_count == 0) {
        iocsq_hand_release();
    }
}

struct iocsq_watch iocsq_watch_lock(const void *lock) {
    struct iocsq_watch before = iocsq_own.watch, begun = { lock, 0 };
    iocsq_own.watch = begun;
    return before;
}

uint32_t iocsq_end_watch(struct iocsq_watch before) {
    uint32_t releases = iocsq_own.watch.releases;
    iocsq_own.watch = before;
    return releases;
}

/* ---- Words that are locks: UNTAKEN, or the number of the thread that has it ---- */
/* A thread that reads it touches the word, or waits for it. */
IOCSQ_COMMUTES static ULONG_PTR owner_of(const ULONG_PTR *word) {
    return __atomic_load_n(word, __ATOMIC_SEQ_CST);
}

static bool is_free(void *word) {
    return owner_of(word) == UNTAKEN;
}

static void begin_word(ULONG_PTR *word, const char *what) {
    iocsq_expect_nonpaged(word, what);
    __atomic_store_n(word, UNTAKEN, __ATOMIC_SEQ_CST);
}

/* The thread that has the word, or UNTAKEN. */
static ULONG_PTR known_owner(const ULONG_PTR *word, const char *what) {
    ULONG_PTR owner = owner_of(word);
    if (owner != UNTAKEN && (owner == 0 || owner > iocsq_thread_count())) {
        iocsq_disagree(NULL, "%s that was not initialized, or was overwritten", what);
    }
    return owner;
}

static const ULONG_PTR *waited_for[THREADS]; /* in turns: the word that each thread waits for, by
                                              * the thread's number, if that is so small */

/* In which order two threads begin to wait is the same to a deadlock: the last one finds it. */
IOCSQ_COMMUTES static const ULONG_PTR *awaited_by(ULONG_PTR thread) {
    return thread < THREADS ? waited_for[thread] : NULL;
}

IOCSQ_COMMUTES static void note_wait(ULONG_PTR thread, const ULONG_PTR *word) {
    if (thread < THREADS) {
        waited_for[thread] = word;
    }
}

/* Whether who has the word waits for a word, and so on until one that this thread has: then none of
 * them goes on. */
static void check_circle(const ULONG_PTR *word, ULONG_PTR mine, const char *what) {
    ULONG_PTR first = owner_of(word), last = first;
    for (const ULONG_PTR *next = word; next && last != mine; next = awaited_by(last)) {
        ULONG_PTR owner = owner_of(next);
        if (owner == mine) {
            iocsq_disagree(NULL,
                           "a deadlock: this thread waits for %s that t%u has, and t%u for a lock "
                           "that this thread has",
                           what, (unsigned)first, (unsigned)last);
        }
        last = owner;
    }
}

/* `before`: how often it has found the word taken before. */
static void wait_for_word(ULONG_PTR *word, ULONG_PTR mine, const char *what, uint32_t before) {
    if (!iocsq_in_turns()) {
        before < YIELDS ? iocsq_yield() : IocsqPause(PAUSE);
        return;
    }
    check_circle(word, mine, what);
    note_wait(mine, word);
    iocsq_wait_in_turns(is_free, word, IOCSQ_FOR_EVER, false, what);
    note_wait(mine, NULL);
}

static bool try_word(ULONG_PTR *word, const char *what) {
    ULONG_PTR owner = known_owner(word, what), mine = iocsq_thread();
    if (owner == mine) {
        iocsq_disagree(NULL, "%s is taken again by the thread that has it", what);
    }
    bool taken = owner == UNTAKEN && __atomic_compare_exchange_n(word, &owner, mine, 0,
                                                                 __ATOMIC_SEQ_CST,
                                                                 __ATOMIC_SEQ_CST);
    if (taken) {
        iocsq_note_lock(word);
        iocsq_touch(word, IOCSQ_SYNC);
    }
    return taken;
}

/* Whether it is taken: at once, or if `waits` in the end. */
static bool take_word(ULONG_PTR *word, const char *what, bool waits) {
    bool taken;
    uint32_t tries = 0;
    iocsq_point();
    while (!(taken = try_word(word, what)) && waits) {
        wait_for_word(word, iocsq_thread(), what, tries++);
    }
    if (!taken) {
        iocsq_touch(word, IOCSQ_LOOKS);
    }
    return taken;
}

static void leave_word(ULONG_PTR *word) {
    iocsq_forget_lock(word);
    iocsq_touch(word, IOCSQ_SYNC);
    __atomic_store_n(word, UNTAKEN, __ATOMIC_SEQ_CST);
}

/* ---- Spin locks ---- */
VOID NTAPI KeInitializeSpinLock(PKSPIN_LOCK SpinLock) {
    begin_word(SpinLock, "a spin lock");
}

static void expect_dispatch(const char *call) {
    if (iocsq_own.irql < DISPATCH_LEVEL) {
        iocsq_disagree(NULL, "%s at IRQL %u", call, iocsq_own.irql);
    }
}

/* `saved`: the call returns the IRQL from which it came, to which the release of the last one goes
 * back. */
static void count_spin_lock(KIRQL before, bool saved) {
    if (iocsq_own.spin_lock_count++ == 0) {
        iocsq_own.irql_before = before;
        iocsq_own.saved_before = saved;
    }
}

VOID NTAPI KeAcquireSpinLockAtDpcLevel(PKSPIN_LOCK SpinLock) {
    expect_dispatch("KeAcquireSpinLockAtDpcLevel");
    take_word(SpinLock, "a spin lock", true);
    count_spin_lock(iocsq_own.irql, false);
}

BOOLEAN FASTCALL KeTryToAcquireSpinLockAtDpcLevel(PKSPIN_LOCK SpinLock) {
    expect_dispatch("KeTryToAcquireSpinLockAtDpcLevel");
    bool taken = take_word(SpinLock, "a spin lock", false);
    if (taken) {
        count_spin_lock(iocsq_own.irql, false);
    }
    return taken;
}

BOOLEAN FASTCALL KeTestSpinLock(PKSPIN_LOCK SpinLock) {
    iocsq_point();
    iocsq_touch(SpinLock, IOCSQ_LOOKS);
    return known_owner(SpinLock, "a spin lock") == UNTAKEN;
}

VOID NTAPI KeReleaseSpinLockFromDpcLevel(PKSPIN_LOCK SpinLock) {
    leave_word(SpinLock);
    iocsq_own.spin_lock_count--;
}

KIRQL NTAPI KeAcquireSpinLockRaiseToDpc(PKSPIN_LOCK SpinLock) {
    KIRQL before = iocsq_own.irql;
    iocsq_expect_irql(DISPATCH_LEVEL, "KeAcquireSpinLock");
    iocsq_own.irql = DISPATCH_LEVEL;
    take_word(SpinLock, "a spin lock", true);
    count_spin_lock(before, true);
    return before;
}

/* A thread that has a spin lock stays at DISPATCH_LEVEL, and goes back to where it came from as it
 * leaves the last one. (Two may be left in the order in which they were taken, if each release is
 * given the other's IRQL.) */
static void check_release(KIRQL to) {
    if (iocsq_own.spin_lock_count > 1 && to < DISPATCH_LEVEL) {
        iocsq_disagree(NULL, "KeReleaseSpinLock to IRQL %u, and this thread has another spin lock",
                       to);
    }
    if (iocsq_own.spin_lock_count == 1 && iocsq_own.saved_before && to != iocsq_own.irql_before) {
        iocsq_disagree(NULL, "KeReleaseSpinLock to IRQL %u, and the thread came from %u", to,
                       iocsq_own.irql_before);
    }
}

VOID NTAPI KeReleaseSpinLock(PKSPIN_LOCK SpinLock, KIRQL NewIrql) {
    check_release(NewIrql);
    KeReleaseSpinLockFromDpcLevel(SpinLock);
    iocsq_own.irql = NewIrql;
}

/* ---- Queued spin locks: a handle is one acquire's, from before it waits until its release ---- */
static struct {
    const KLOCK_QUEUE_HANDLE *handle; /* null: none */
    uint32_t thread;
} handles[HANDLES]; /* under the state's lock */

/* The place of a handle in use; null: the first free one. HANDLES: there is none. It is the same
 * where one stands. */
IOCSQ_COMMUTES static uint32_t place_of(const KLOCK_QUEUE_HANDLE *handle) {
    uint32_t at = 0;
    while (at < HANDLES && handles[at].handle != handle) {
        at++;
    }
    return at;
}

IOCSQ_ADDS static void begin_handle(PKLOCK_QUEUE_HANDLE handle) {
    iocsq_lock_state_for(handle, IOCSQ_CHANGES);
    uint32_t used = place_of(handle), at = place_of(NULL);
    if (used < HANDLES) {
        iocsq_disagree(NULL,
                       "a KLOCK_QUEUE_HANDLE is used for an acquire, and t%u uses it for another: "
                       "each wants its own, on the stack",
                       handles[used].thread);
    }
    if (at == HANDLES) {
        iocsq_fail("more than %u queued spin locks at once", (unsigned)HANDLES);
    }
    handles[at].handle = handle;
    handles[at].thread = iocsq_thread();
    iocsq_unlock_state();
}

IOCSQ_ADDS static void end_handle(const KLOCK_QUEUE_HANDLE *handle) {
    iocsq_lock_state_for(handle, IOCSQ_CHANGES);
    uint32_t at = place_of(handle);
    if (at == HANDLES || handles[at].thread != iocsq_thread()) {
        iocsq_disagree(NULL,
                       "a KLOCK_QUEUE_HANDLE is released that this thread acquired nothing with");
    }
    handles[at].handle = NULL;
    iocsq_unlock_state();
}

VOID NTAPI KeAcquireInStackQueuedSpinLock(PKSPIN_LOCK SpinLock, PKLOCK_QUEUE_HANDLE LockHandle) {
    begin_handle(LockHandle);
    LockHandle->Lock = SpinLock;
    LockHandle->OldIrql = KeAcquireSpinLockRaiseToDpc(SpinLock);
}

VOID NTAPI KeReleaseInStackQueuedSpinLock(PKLOCK_QUEUE_HANDLE LockHandle) {
    end_handle(LockHandle);
    KeReleaseSpinLock(LockHandle->Lock, LockHandle->OldIrql);
}

VOID NTAPI KeAcquireInStackQueuedSpinLockAtDpcLevel(PKSPIN_LOCK SpinLock,
                                                    PKLOCK_QUEUE_HANDLE LockHandle) {
    expect_dispatch("KeAcquireInStackQueuedSpinLockAtDpcLevel");
    begin_handle(LockHandle);
    LockHandle->Lock = SpinLock;
    KeAcquireSpinLockAtDpcLevel(SpinLock);
}

VOID NTAPI KeReleaseInStackQueuedSpinLockFromDpcLevel(PKLOCK_QUEUE_HANDLE LockHandle) {
    end_handle(LockHandle);
    KeReleaseSpinLockFromDpcLevel(LockHandle->Lock);
}

/* ---- The cancel spin lock ---- */
static KSPIN_LOCK cancel_lock = UNTAKEN;

VOID NTAPI IoAcquireCancelSpinLock(PKIRQL Irql) {
    *Irql = KeAcquireSpinLockRaiseToDpc(&cancel_lock);
    iocsq_own.cancel_hold++;
}

uint32_t iocsq_cancel_lock_hold(void) {
    return iocsq_has_lock(&cancel_lock) ? iocsq_own.cancel_hold : 0;
}

/* In a cancel routine it goes back to the IRQL from which IoCancelIrp came, or stays at
 * DISPATCH_LEVEL: then the routine goes back later, as by the release of a lock of the driver's. */
static void check_cancel_irql(KIRQL to) {
    const struct iocsq_irp *i = iocsq_own.routine_of;
    bool last = iocsq_own.spin_lock_count == 1 && iocsq_own.saved_before;
    if (i && i->place != IOCSQ_DONE && last && to != iocsq_own.irql_before) {
        iocsq_disagree(i,
                       "IoReleaseCancelSpinLock(%u) in the cancel routine of irp %u, which came "
                       "from IRQL %u: Irp->CancelIrql says so",
                       to, i->index, iocsq_own.irql_before);
    }
}

VOID NTAPI IoReleaseCancelSpinLock(KIRQL Irql) {
    if (iocsq_own.routine_of && Irql == DISPATCH_LEVEL) {
        KeReleaseSpinLockFromDpcLevel(&cancel_lock);
        return;
    }
    check_cancel_irql(Irql);
    KeReleaseSpinLock(&cancel_lock, Irql);
}

/* ---- Lists under a spin lock ---- */
static PLIST_ENTRY entry_or_null(PLIST_ENTRY head, PLIST_ENTRY entry) {
    return entry == head ? NULL : entry;
}

PLIST_ENTRY NTAPI ExInterlockedInsertHeadList(PLIST_ENTRY ListHead, PLIST_ENTRY ListEntry,
                                              PKSPIN_LOCK Lock) {
    KIRQL before = KeAcquireSpinLockRaiseToDpc(Lock);
    PLIST_ENTRY first = entry_or_null(ListHead, ListHead->Flink);
    InsertHeadList(ListHead, ListEntry);
    KeReleaseSpinLock(Lock, before);
    return first;
}

PLIST_ENTRY NTAPI ExInterlockedInsertTailList(PLIST_ENTRY ListHead, PLIST_ENTRY ListEntry,
                                              PKSPIN_LOCK Lock) {
    KIRQL before = KeAcquireSpinLockRaiseToDpc(Lock);
    PLIST_ENTRY last = entry_or_null(ListHead, ListHead->Blink);
    InsertTailList(ListHead, ListEntry);
    KeReleaseSpinLock(Lock, before);
    return last;
}

PLIST_ENTRY NTAPI ExInterlockedRemoveHeadList(PLIST_ENTRY ListHead, PKSPIN_LOCK Lock) {
    KIRQL before = KeAcquireSpinLockRaiseToDpc(Lock);
    PLIST_ENTRY first = entry_or_null(ListHead, ListHead->Flink);
    if (first) {
        RemoveEntryList(first);
    }
    KeReleaseSpinLock(Lock, before);
    return first;
}

PSINGLE_LIST_ENTRY NTAPI ExInterlockedPushEntryList(PSINGLE_LIST_ENTRY ListHead,
                                                    PSINGLE_LIST_ENTRY ListEntry,
                                                    PKSPIN_LOCK Lock) {
    KIRQL before = KeAcquireSpinLockRaiseToDpc(Lock);
    PSINGLE_LIST_ENTRY first = ListHead->Next;
    PushEntryList(ListHead, ListEntry);
    KeReleaseSpinLock(Lock, before);
    return first;
}

PSINGLE_LIST_ENTRY NTAPI ExInterlockedPopEntryList(PSINGLE_LIST_ENTRY ListHead, PKSPIN_LOCK Lock) {
    KIRQL before = KeAcquireSpinLockRaiseToDpc(Lock);
    PSINGLE_LIST_ENTRY first = PopEntryList(ListHead);
    KeReleaseSpinLock(Lock, before);
    return first;
}

/* ---- Fast mutexes ---- */
VOID NTAPI ExInitializeFastMutex(PFAST_MUTEX FastMutex) {
    begin_word(&FastMutex->Lock, "a fast mutex");
}

static bool take_mutex(PFAST_MUTEX mutex, KIRQL level, bool waits, const char *call) {
    KIRQL before = iocsq_own.irql;
    iocsq_expect_irql(APC_LEVEL, call);
    iocsq_own.irql = level > before ? level : before;
    bool taken = take_word(&mutex->Lock, "a fast mutex", waits);
    if (taken) {
        mutex->OldIrql = before;
    } else {
        iocsq_own.irql = before;
    }
    return taken;
}

VOID NTAPI ExAcquireFastMutex(PFAST_MUTEX FastMutex) {
    take_mutex(FastMutex, APC_LEVEL, true, "ExAcquireFastMutex");
}

BOOLEAN NTAPI ExTryToAcquireFastMutex(PFAST_MUTEX FastMutex) {
    return take_mutex(FastMutex, APC_LEVEL, false, "ExTryToAcquireFastMutex");
}

VOID NTAPI ExAcquireFastMutexUnsafe(PFAST_MUTEX FastMutex) {
    take_mutex(FastMutex, PASSIVE_LEVEL, true, "ExAcquireFastMutexUnsafe or KeAcquireGuardedMutex");
}

VOID NTAPI ExReleaseFastMutex(PFAST_MUTEX FastMutex) {
    KIRQL before = FastMutex->OldIrql;
    leave_word(&FastMutex->Lock);
    iocsq_own.irql = before;
}

VOID NTAPI ExReleaseFastMutexUnsafe(PFAST_MUTEX FastMutex) {
    leave_word(&FastMutex->Lock);
}
