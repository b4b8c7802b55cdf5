/* Of iocsq.h: IRQL, locks, what threads wait for, timers and DPCs. */
#ifndef IOCSQ_KERNEL_H
#define IOCSQ_KERNEL_H
#include "base.h"
#ifdef __cplusplus
extern "C" {
#endif

/* ---- IRQL, spin locks, fast mutexes, interlocked calls ---- */
typedef UCHAR KIRQL, *PKIRQL;
typedef CCHAR KPROCESSOR_MODE;
enum { KernelMode, UserMode };
KIRQL NTAPI KeGetCurrentIrql(VOID);
KIRQL NTAPI KfRaiseIrql(KIRQL NewIrql);
VOID NTAPI KeLowerIrql(KIRQL NewIrql);
#define KeRaiseIrql(NewIrql, OldIrql) (*(OldIrql) = KfRaiseIrql(NewIrql))
#define KeRaiseIrqlToDpcLevel() KfRaiseIrql(DISPATCH_LEVEL)
#define KeGetCurrentProcessorNumber() ((ULONG)0)
#define KeEnterCriticalRegion() ((void)0)
#define KeLeaveCriticalRegion() ((void)0)
#define KeEnterGuardedRegion() ((void)0)
#define KeLeaveGuardedRegion() ((void)0)
VOID IocsqMemoryBarrier(VOID); /* a call: gcc warns of a fence with -fsanitize=thread */
#define KeMemoryBarrier() IocsqMemoryBarrier()

typedef ULONG_PTR KSPIN_LOCK, *PKSPIN_LOCK;
VOID NTAPI KeInitializeSpinLock(PKSPIN_LOCK SpinLock);
KIRQL NTAPI KeAcquireSpinLockRaiseToDpc(PKSPIN_LOCK SpinLock);
#define KeAcquireSpinLock(SpinLock, OldIrql) (*(OldIrql) = KeAcquireSpinLockRaiseToDpc(SpinLock))
VOID NTAPI KeReleaseSpinLock(PKSPIN_LOCK SpinLock, KIRQL NewIrql);
VOID NTAPI KeAcquireSpinLockAtDpcLevel(PKSPIN_LOCK SpinLock);
VOID NTAPI KeReleaseSpinLockFromDpcLevel(PKSPIN_LOCK SpinLock);
BOOLEAN FASTCALL KeTryToAcquireSpinLockAtDpcLevel(PKSPIN_LOCK SpinLock);
BOOLEAN FASTCALL KeTestSpinLock(PKSPIN_LOCK SpinLock); /* whether nobody has it */
typedef struct _KLOCK_QUEUE_HANDLE {
    PKSPIN_LOCK Lock;
    KIRQL OldIrql;
} KLOCK_QUEUE_HANDLE, *PKLOCK_QUEUE_HANDLE;
VOID NTAPI KeAcquireInStackQueuedSpinLock(PKSPIN_LOCK SpinLock, PKLOCK_QUEUE_HANDLE LockHandle);
VOID NTAPI KeReleaseInStackQueuedSpinLock(PKLOCK_QUEUE_HANDLE LockHandle);
VOID NTAPI KeAcquireInStackQueuedSpinLockAtDpcLevel(PKSPIN_LOCK SpinLock,
                                                    PKLOCK_QUEUE_HANDLE LockHandle);
VOID NTAPI KeReleaseInStackQueuedSpinLockFromDpcLevel(PKLOCK_QUEUE_HANDLE LockHandle);

typedef struct _FAST_MUTEX {
    ULONG_PTR Lock;
    KIRQL OldIrql;
} FAST_MUTEX, *PFAST_MUTEX, KGUARDED_MUTEX, *PKGUARDED_MUTEX;
VOID NTAPI ExInitializeFastMutex(PFAST_MUTEX FastMutex);
VOID NTAPI ExAcquireFastMutex(PFAST_MUTEX FastMutex);
VOID NTAPI ExReleaseFastMutex(PFAST_MUTEX FastMutex);
BOOLEAN NTAPI ExTryToAcquireFastMutex(PFAST_MUTEX FastMutex);
VOID NTAPI ExAcquireFastMutexUnsafe(PFAST_MUTEX FastMutex); /* the IRQL stays */
VOID NTAPI ExReleaseFastMutexUnsafe(PFAST_MUTEX FastMutex);
#define KeInitializeGuardedMutex ExInitializeFastMutex
#define KeAcquireGuardedMutex ExAcquireFastMutexUnsafe
#define KeReleaseGuardedMutex ExReleaseFastMutexUnsafe

VOID IocsqPoint(VOID); /* another thread may come between here */
#define IOCSQ_INTERLOCKED(call, Target, Value) (IocsqPoint(), call(Target, Value))
#define InterlockedExchangePointer(Target, Value) \
    IOCSQ_INTERLOCKED(IOCSQ_EXCHANGE_POINTER, Target, Value)
#define InterlockedExchange(Target, Value) IOCSQ_INTERLOCKED(IOCSQ_EXCHANGE, Target, Value)
#define InterlockedExchange64(Target, Value) IOCSQ_INTERLOCKED(IOCSQ_EXCHANGE64, Target, Value)
#define InterlockedIncrement(Addend) IOCSQ_INTERLOCKED(IOCSQ_ADD, Addend, 1)
#define InterlockedIncrement64(Addend) IOCSQ_INTERLOCKED(IOCSQ_ADD64, Addend, 1)
#define InterlockedDecrement(Addend) IOCSQ_INTERLOCKED(IOCSQ_ADD, Addend, -1)
#define InterlockedDecrement64(Addend) IOCSQ_INTERLOCKED(IOCSQ_ADD64, Addend, -1)
#define InterlockedExchangeAdd(Addend, Value) IOCSQ_INTERLOCKED(IOCSQ_FETCH_ADD, Addend, Value)
#define InterlockedExchangeAdd64(Addend, Value) IOCSQ_INTERLOCKED(IOCSQ_FETCH_ADD64, Addend, Value)
#define InterlockedAdd(Addend, Value) IOCSQ_INTERLOCKED(IOCSQ_ADD, Addend, Value)
#define InterlockedOr(Target, Set) IOCSQ_INTERLOCKED(IOCSQ_FETCH_OR, Target, Set)
#define InterlockedAnd(Target, Set) IOCSQ_INTERLOCKED(IOCSQ_FETCH_AND, Target, Set)
#define InterlockedXor(Target, Set) IOCSQ_INTERLOCKED(IOCSQ_FETCH_XOR, Target, Set)
#define InterlockedCompareExchange(Target, Value, Comparand) \
    (IocsqPoint(), IOCSQ_COMPARE(Target, Value, Comparand))
#define InterlockedCompareExchange64(Target, Value, Comparand) \
    (IocsqPoint(), IOCSQ_COMPARE64(Target, Value, Comparand))
#define InterlockedCompareExchangePointer(Target, Value, Comparand) \
    (IocsqPoint(), IOCSQ_COMPARE_POINTER(Target, Value, Comparand))
#define InterlockedBitTestAndSet(Base, Bit) \
    ((BOOLEAN)(InterlockedOr((Base), (LONG)(1U << ((Bit) & 31))) >> ((Bit) & 31) & 1))
#define InterlockedBitTestAndReset(Base, Bit) \
    ((BOOLEAN)(InterlockedAnd((Base), (LONG)~(1U << ((Bit) & 31))) >> ((Bit) & 31) & 1))
/* Each is as strong as the one without the word. */
#define InterlockedIncrementAcquire InterlockedIncrement
#define InterlockedIncrementRelease InterlockedIncrement
#define InterlockedIncrementNoFence InterlockedIncrement
#define InterlockedDecrementAcquire InterlockedDecrement
#define InterlockedDecrementRelease InterlockedDecrement
#define InterlockedDecrementNoFence InterlockedDecrement
#define InterlockedExchangeAcquire InterlockedExchange
#define InterlockedExchangeNoFence InterlockedExchange
#define InterlockedCompareExchangeAcquire InterlockedCompareExchange
#define InterlockedCompareExchangeRelease InterlockedCompareExchange
#define InterlockedCompareExchangeNoFence InterlockedCompareExchange
#define ReadNoFence(Source) (IocsqPoint(), IOCSQ_LOAD(Source))
#define ReadAcquire(Source) (IocsqPoint(), IOCSQ_LOAD_ACQUIRE(Source))
#define WriteNoFence(Target, Value) (IocsqPoint(), IOCSQ_STORE(Target, Value))
#define WriteRelease(Target, Value) (IocsqPoint(), IOCSQ_STORE_RELEASE(Target, Value))
#define ReadNoFence64 ReadNoFence
#define ReadAcquire64 ReadAcquire
#define WriteNoFence64 WriteNoFence
#define WriteRelease64 WriteRelease
#define ReadPointerNoFence ReadNoFence
#define ReadPointerAcquire ReadAcquire
#define WritePointerNoFence WriteNoFence
#define WritePointerRelease WriteRelease
#define YieldProcessor() IocsqPoint()

/* Lists under a spin lock, at any IRQL up to DISPATCH_LEVEL. Null: the list was empty. */
PLIST_ENTRY NTAPI ExInterlockedInsertHeadList(PLIST_ENTRY ListHead, PLIST_ENTRY ListEntry,
                                              PKSPIN_LOCK Lock);
PLIST_ENTRY NTAPI ExInterlockedInsertTailList(PLIST_ENTRY ListHead, PLIST_ENTRY ListEntry,
                                              PKSPIN_LOCK Lock);
PLIST_ENTRY NTAPI ExInterlockedRemoveHeadList(PLIST_ENTRY ListHead, PKSPIN_LOCK Lock);
PSINGLE_LIST_ENTRY NTAPI ExInterlockedPushEntryList(PSINGLE_LIST_ENTRY ListHead,
                                                    PSINGLE_LIST_ENTRY ListEntry, PKSPIN_LOCK Lock);
PSINGLE_LIST_ENTRY NTAPI ExInterlockedPopEntryList(PSINGLE_LIST_ENTRY ListHead, PKSPIN_LOCK Lock);

/* ---- Device queues: one request is the device's, the others wait. At DISPATCH_LEVEL ---- */
typedef struct _KDEVICE_QUEUE {
    CSHORT Type;
    BOOLEAN Busy;
    KSPIN_LOCK Lock;
    LIST_ENTRY DeviceListHead;
} KDEVICE_QUEUE, *PKDEVICE_QUEUE;
typedef struct _KDEVICE_QUEUE_ENTRY {
    LIST_ENTRY DeviceListEntry;
    ULONG SortKey;
    BOOLEAN Inserted;
} KDEVICE_QUEUE_ENTRY, *PKDEVICE_QUEUE_ENTRY;
VOID NTAPI KeInitializeDeviceQueue(PKDEVICE_QUEUE DeviceQueue);
/* TRUE: the device was busy, and the entry waits; FALSE: it is the device's. */
BOOLEAN NTAPI KeInsertDeviceQueue(PKDEVICE_QUEUE DeviceQueue,
                                  PKDEVICE_QUEUE_ENTRY DeviceQueueEntry);
BOOLEAN NTAPI KeInsertByKeyDeviceQueue(PKDEVICE_QUEUE DeviceQueue,
                                       PKDEVICE_QUEUE_ENTRY DeviceQueueEntry, ULONG SortKey);
/* Null: none waits, and the device isn't busy any more. */
PKDEVICE_QUEUE_ENTRY NTAPI KeRemoveDeviceQueue(PKDEVICE_QUEUE DeviceQueue);
PKDEVICE_QUEUE_ENTRY NTAPI KeRemoveByKeyDeviceQueue(PKDEVICE_QUEUE DeviceQueue, ULONG SortKey);
/* Whether it waited. */
BOOLEAN NTAPI KeRemoveEntryDeviceQueue(PKDEVICE_QUEUE DeviceQueue,
                                       PKDEVICE_QUEUE_ENTRY DeviceQueueEntry);

/* ---- Times: of the checker's clock, in turns that of the turns ---- */
VOID NTAPI KeQuerySystemTime(PLARGE_INTEGER CurrentTime);
ULONGLONG NTAPI KeQueryInterruptTime(VOID);
ULONG NTAPI KeQueryTimeIncrement(VOID);
VOID IocsqQueryTickCount(PLARGE_INTEGER TickCount);
#define KeQueryTickCount(TickCount) IocsqQueryTickCount(TickCount)
LARGE_INTEGER NTAPI KeQueryPerformanceCounter(PLARGE_INTEGER PerformanceFrequency);
VOID NTAPI KeStallExecutionProcessor(ULONG MicroSeconds);

/* ---- What threads wait for: each begins with a DISPATCHER_HEADER ---- */
typedef enum _EVENT_TYPE { NotificationEvent, SynchronizationEvent } EVENT_TYPE;
typedef enum _TIMER_TYPE { NotificationTimer, SynchronizationTimer } TIMER_TYPE;
typedef enum _WAIT_TYPE { WaitAll, WaitAny } WAIT_TYPE;
typedef enum _KWAIT_REASON { Executive = 0, UserRequest = 6 } KWAIT_REASON;
typedef LONG KPRIORITY;
typedef struct _DISPATCHER_HEADER {
    UCHAR Type;
    USHORT Initialized; /* a number that memory doesn't have by chance */
    LONG SignalState;
} DISPATCHER_HEADER;

typedef struct _KEVENT {
    DISPATCHER_HEADER Header;
} KEVENT, *PKEVENT, *PRKEVENT;
VOID NTAPI KeInitializeEvent(PRKEVENT Event, EVENT_TYPE Type, BOOLEAN State);
LONG NTAPI KeSetEvent(PRKEVENT Event, KPRIORITY Increment, BOOLEAN Wait);
LONG NTAPI KeResetEvent(PRKEVENT Event);
VOID NTAPI KeClearEvent(PRKEVENT Event);
LONG NTAPI KeReadStateEvent(PRKEVENT Event);

typedef struct _KMUTANT {
    DISPATCHER_HEADER Header;
    ULONG OwnerThread; /* 0: none */
} KMUTANT, KMUTEX, *PKMUTANT, *PRKMUTANT, *PKMUTEX, *PRKMUTEX;
VOID NTAPI KeInitializeMutex(PRKMUTEX Mutex, ULONG Level);
LONG NTAPI KeReleaseMutex(PRKMUTEX Mutex, BOOLEAN Wait);
LONG NTAPI KeReadStateMutex(PRKMUTEX Mutex);

typedef struct _KSEMAPHORE {
    DISPATCHER_HEADER Header;
    LONG Limit;
} KSEMAPHORE, *PKSEMAPHORE, *PRKSEMAPHORE;
VOID NTAPI KeInitializeSemaphore(PRKSEMAPHORE Semaphore, LONG Count, LONG Limit);
LONG NTAPI KeReleaseSemaphore(PRKSEMAPHORE Semaphore, KPRIORITY Increment, LONG Adjustment,
                              BOOLEAN Wait);
LONG NTAPI KeReadStateSemaphore(PRKSEMAPHORE Semaphore);

typedef struct _KWAIT_BLOCK {
    PVOID Unused;
} KWAIT_BLOCK, *PKWAIT_BLOCK;
NTSTATUS NTAPI KeWaitForSingleObject(PVOID Object, KWAIT_REASON Reason, KPROCESSOR_MODE Mode,
                                     BOOLEAN Alertable, PLARGE_INTEGER Timeout);
NTSTATUS NTAPI KeWaitForMultipleObjects(ULONG Count, PVOID Object[], WAIT_TYPE WaitType,
                                        KWAIT_REASON Reason, KPROCESSOR_MODE Mode,
                                        BOOLEAN Alertable, PLARGE_INTEGER Timeout,
                                        PKWAIT_BLOCK WaitBlockArray);
#define KeWaitForMutexObject KeWaitForSingleObject
NTSTATUS NTAPI KeDelayExecutionThread(KPROCESSOR_MODE Mode, BOOLEAN Alertable,
                                      PLARGE_INTEGER Interval);

/* ---- Timers and DPCs: one processor's, whose DPCs run one after the other ---- */
struct _KDPC;
typedef VOID(NTAPI KDEFERRED_ROUTINE)(struct _KDPC *Dpc, PVOID DeferredContext,
                                      PVOID SystemArgument1, PVOID SystemArgument2);
typedef KDEFERRED_ROUTINE *PKDEFERRED_ROUTINE;
typedef struct _KDPC {
    UCHAR Type; /* as Windows has it, once it is initialized */
    struct _KDPC *Next;
    PKDEFERRED_ROUTINE DeferredRoutine;
    PVOID DeferredContext;
    PVOID SystemArgument1;
    PVOID SystemArgument2;
    BOOLEAN Queued;
    BOOLEAN Periodic; /* a timer with a period has queued it */
} KDPC, *PKDPC, *PRKDPC;
VOID NTAPI KeInitializeDpc(PRKDPC Dpc, PKDEFERRED_ROUTINE DeferredRoutine, PVOID DeferredContext);
BOOLEAN NTAPI KeInsertQueueDpc(PRKDPC Dpc, PVOID SystemArgument1, PVOID SystemArgument2);
BOOLEAN NTAPI KeRemoveQueueDpc(PRKDPC Dpc);
VOID NTAPI KeFlushQueuedDpcs(VOID);
typedef enum _KDPC_IMPORTANCE { LowImportance, MediumImportance, HighImportance } KDPC_IMPORTANCE;
#define KeSetImportanceDpc(Dpc, Importance) ((void)(Dpc), (void)(Importance))

typedef struct _KTIMER {
    DISPATCHER_HEADER Header;
    struct _KTIMER *Next;
    PKDPC Dpc;
    ULONGLONG DueTime; /* nanoseconds of the checker's clock */
    LONG Period;       /* milliseconds; 0: once */
    BOOLEAN Set;
} KTIMER, *PKTIMER;
VOID NTAPI KeInitializeTimer(PKTIMER Timer);
VOID NTAPI KeInitializeTimerEx(PKTIMER Timer, TIMER_TYPE Type);
BOOLEAN NTAPI KeSetTimer(PKTIMER Timer, LARGE_INTEGER DueTime, PKDPC Dpc);
BOOLEAN NTAPI KeSetTimerEx(PKTIMER Timer, LARGE_INTEGER DueTime, LONG Period, PKDPC Dpc);
#define KeSetCoalescableTimer(Timer, DueTime, Period, TolerableDelay, Dpc) \
    ((void)(TolerableDelay), KeSetTimerEx((Timer), (DueTime), (LONG)(Period), (Dpc)))
BOOLEAN NTAPI KeCancelTimer(PKTIMER Timer);
BOOLEAN NTAPI KeReadStateTimer(PKTIMER Timer);

/* ---- Threads of the driver ---- */
typedef VOID(NTAPI KSTART_ROUTINE)(PVOID StartContext);
typedef KSTART_ROUTINE *PKSTART_ROUTINE;
typedef ULONG ACCESS_MASK;
typedef struct _OBJECT_ATTRIBUTES {
    ULONG Length;
    HANDLE RootDirectory;
    PUNICODE_STRING ObjectName;
    ULONG Attributes;
    PVOID SecurityDescriptor;
    PVOID SecurityQualityOfService;
} OBJECT_ATTRIBUTES, *POBJECT_ATTRIBUTES;
#define InitializeObjectAttributes(p, n, a, r, s)      \
    ((void)((p)->Length = sizeof(OBJECT_ATTRIBUTES),   \
            (p)->RootDirectory = (r),                  \
            (p)->ObjectName = (n),                     \
            (p)->Attributes = (a),                     \
            (p)->SecurityDescriptor = (s),             \
            (p)->SecurityQualityOfService = NULL))
typedef struct _CLIENT_ID *PCLIENT_ID;
typedef struct _OBJECT_TYPE *POBJECT_TYPE;
typedef struct _KTHREAD *PKTHREAD, *PRKTHREAD, *PETHREAD;
extern POBJECT_TYPE *PsThreadType;
PKTHREAD NTAPI KeGetCurrentThread(VOID);
#define PsGetCurrentThread KeGetCurrentThread
#define PsGetCurrentThreadId() ((HANDLE)KeGetCurrentThread())
#define PsGetCurrentProcessId() ((HANDLE)(ULONG_PTR)4) /* the system's */
KPRIORITY NTAPI KeSetPriorityThread(PKTHREAD Thread, KPRIORITY Priority);
NTSTATUS NTAPI PsCreateSystemThread(PHANDLE ThreadHandle, ULONG DesiredAccess,
                                    POBJECT_ATTRIBUTES ObjectAttributes, HANDLE ProcessHandle,
                                    PCLIENT_ID ClientId, PKSTART_ROUTINE StartRoutine,
                                    PVOID StartContext);
NTSTATUS NTAPI PsTerminateSystemThread(NTSTATUS ExitStatus);
NTSTATUS NTAPI ObReferenceObjectByHandle(HANDLE Handle, ACCESS_MASK DesiredAccess,
                                         POBJECT_TYPE ObjectType, KPROCESSOR_MODE AccessMode,
                                         PVOID *Object, PVOID HandleInformation);
/* Of a thread, a file object or a device. */
#define ObReferenceObject(Object) IocsqReferenceObject(Object)
#define ObDereferenceObject(Object) IocsqDereferenceObject(Object)
VOID IocsqReferenceObject(PVOID Object);
VOID IocsqDereferenceObject(PVOID Object);
NTSTATUS NTAPI ZwClose(HANDLE Handle);

#ifdef __cplusplus
}
#endif
#endif
