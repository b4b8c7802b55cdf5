/* What the right drivers of this folder share, each of which keeps its requests in a way that is
 * seldom seen: with an IO_CSQ (then often the queue of waiting.h), or with cancel routines of their
 * own. */
#ifndef UNUSUAL_H
#define UNUSUAL_H
#include "../drivers/waiting.h"

static inline NTSTATUS Complete(PIRP Irp, NTSTATUS Status) {
    Finish(Irp, Status, 0);
    return Status;
}

/* Completes a read that waited, if there is one, and the write for which it was removed. */
static inline NTSTATUS CompleteBoth(PIRP Waiting, PIRP Irp) {
    if (Waiting != NULL) {
        Complete(Waiting, STATUS_SUCCESS);
    }
    return Complete(Irp, STATUS_SUCCESS);
}

static inline PIRP OfEntry(PLIST_ENTRY Entry) {
    return CONTAINING_RECORD(Entry, IRP, Tail.Overlay.ListEntry);
}

/* Whether the cleanup of the request's file object has begun. The driver's lock is held. */
static inline BOOLEAN IsClosed(PIRP Irp) {
    return FileOf(Irp)->FsContext != NULL;
}

/* The first half of a cleanup: from now on IsClosed says so. */
static inline VOID MarkClosed(PKSPIN_LOCK Lock, PFILE_OBJECT File) {
    KIRQL Irql;
    KeAcquireSpinLock(Lock, &Irql);
    File->FsContext = Lock;
    KeReleaseSpinLock(Lock, Irql);
}

/* The same of a driver with two locks, which it takes in this order: both are held. */
static inline VOID MarkClosedUnderBoth(PKSPIN_LOCK Outer, PKSPIN_LOCK Inner, PFILE_OBJECT File) {
    KIRQL Irql;
    KeAcquireSpinLock(Outer, &Irql);
    KeAcquireSpinLockAtDpcLevel(Inner);
    File->FsContext = Outer;
    KeReleaseSpinLockFromDpcLevel(Inner);
    KeReleaseSpinLock(Outer, Irql);
}

/* ---- The device ---- */
static inline VOID NTAPI UnloadDevice(PDRIVER_OBJECT DriverObject) {
    KeFlushQueuedDpcs();
    IoDeleteDevice(DriverObject->DeviceObject);
}

/* Makes the driver's one device, and returns its extension, which is zero; null: it failed. */
static inline PVOID Begin(PDRIVER_OBJECT DriverObject, ULONG ExtensionSize, PDRIVER_DISPATCH Read,
                          PDRIVER_DISPATCH Write, PDRIVER_DISPATCH Cleanup) {
    PDEVICE_OBJECT DeviceObject;
    if (!NT_SUCCESS(MakeDevice(DriverObject, ExtensionSize, &DeviceObject))) {
        return NULL;
    }
    DriverObject->DriverUnload = UnloadDevice;
    DriverObject->MajorFunction[IRP_MJ_READ] = Read;
    DriverObject->MajorFunction[IRP_MJ_WRITE] = Write;
    DriverObject->MajorFunction[IRP_MJ_CLEANUP] = Cleanup;
    return DeviceObject->DeviceExtension;
}

/* ---- With an IO_CSQ, which is the first in the device's extension ---- */
static inline NTSTATUS NTAPI QueueRead(PDEVICE_OBJECT DeviceObject, PIRP Irp) {
    NTSTATUS Status = IoCsqInsertIrpEx(DeviceObject->DeviceExtension, Irp, NULL, NULL);
    return NT_SUCCESS(Status) ? STATUS_PENDING : Complete(Irp, Status);
}

static inline NTSTATUS NTAPI WriteToQueue(PDEVICE_OBJECT DeviceObject, PIRP Irp) {
    return CompleteBoth(IoCsqRemoveNextIrp(DeviceObject->DeviceExtension, NULL), Irp);
}

/* The second half of a cleanup. */
static inline NTSTATUS CleanQueue(PIO_CSQ Queue, PIRP Irp) {
    PIRP Left;
    while ((Left = IoCsqRemoveNextIrp(Queue, FileOf(Irp))) != NULL) {
        Complete(Left, STATUS_CANCELLED);
    }
    return Complete(Irp, STATUS_SUCCESS);
}

/* The queue of waiting.h with callbacks of the driver's own. */
static inline VOID InitializeOwn(PWAITING Waiting, PIO_CSQ_INSERT_IRP_EX Insert,
                                 PIO_CSQ_PEEK_NEXT_IRP Peek,
                                 PIO_CSQ_COMPLETE_CANCELED_IRP CompleteCanceled) {
    InitializeListHead(&Waiting->Irps);
    KeInitializeSpinLock(&Waiting->Lock);
    IoCsqInitializeEx(&Waiting->Queue, Insert, RemoveWaiting, Peek, LockWaiting, UnlockWaiting,
                      CompleteCanceled);
}

static inline NTSTATUS NTAPI CleanupWaiting(PDEVICE_OBJECT DeviceObject, PIRP Irp) {
    CleanUp(DeviceObject->DeviceExtension, FileOf(Irp));
    return Complete(Irp, STATUS_SUCCESS);
}

/* A queue with a spin lock, in which the driver keeps its IRPs in no list of ListEntry. */
typedef struct _LOCKED_QUEUE {
    IO_CSQ Queue;
    KSPIN_LOCK Lock;
} LOCKED_QUEUE, *PLOCKED_QUEUE;

static inline VOID NTAPI AcquireLocked(PIO_CSQ Csq, PKIRQL Irql) {
    KeAcquireSpinLock(&CONTAINING_RECORD(Csq, LOCKED_QUEUE, Queue)->Lock, Irql);
}

static inline VOID NTAPI ReleaseLocked(PIO_CSQ Csq, KIRQL Irql) {
    KeReleaseSpinLock(&CONTAINING_RECORD(Csq, LOCKED_QUEUE, Queue)->Lock, Irql);
}

static inline NTSTATUS NTAPI CleanupLocked(PDEVICE_OBJECT DeviceObject, PIRP Irp) {
    PLOCKED_QUEUE Locked = DeviceObject->DeviceExtension;
    MarkClosed(&Locked->Lock, FileOf(Irp));
    return CleanQueue(&Locked->Queue, Irp);
}

/* What DriverEntry does. */
static inline NTSTATUS InitializeLocked(PDRIVER_OBJECT DriverObject, ULONG ExtensionSize,
                                        PIO_CSQ_INSERT_IRP_EX Insert, PIO_CSQ_REMOVE_IRP Remove,
                                        PIO_CSQ_PEEK_NEXT_IRP Peek) {
    PLOCKED_QUEUE Locked = Begin(DriverObject, ExtensionSize, QueueRead, WriteToQueue,
                                 CleanupLocked);
    if (Locked == NULL) {
        return STATUS_INSUFFICIENT_RESOURCES;
    }
    KeInitializeSpinLock(&Locked->Lock);
    return IoCsqInitializeEx(&Locked->Queue, Insert, Remove, Peek, AcquireLocked, ReleaseLocked,
                             CompleteWaiting);
}

/* ---- Without an IO_CSQ ---- */
/* Whether the request waits in this list, by this entry. If not, a cancel or the cleanup of its
 * file object came first, and the caller completes it. The list's lock is held. */
static inline BOOLEAN ArmEntry(PLIST_ENTRY Head, PLIST_ENTRY Entry, PIRP Irp,
                               PDRIVER_CANCEL Routine) {
    if (IsClosed(Irp)) {
        return FALSE;
    }
    InsertTailList(Head, Entry);
    IoSetCancelRoutine(Irp, Routine);
    if (Irp->Cancel && IoSetCancelRoutine(Irp, NULL) != NULL) {
        RemoveEntryList(Entry);
        return FALSE;
    }
    return TRUE;
}

static inline BOOLEAN ArmIn(PLIST_ENTRY Head, PIRP Irp, PDRIVER_CANCEL Routine) {
    return ArmEntry(Head, &Irp->Tail.Overlay.ListEntry, Irp, Routine);
}

/* The first request, of this file object or of any for null, that no cancel has. It is the
 * caller's, and unlinked. Null: there is none. The list's lock is held. */
static inline PIRP TakeFrom(PLIST_ENTRY Head, PFILE_OBJECT File) {
    PLIST_ENTRY Entry;
    for (Entry = Head->Flink; Entry != Head; Entry = Entry->Flink) {
        PIRP Irp = OfEntry(Entry);
        if ((File == NULL || FileOf(Irp) == File) && IoSetCancelRoutine(Irp, NULL) != NULL) {
            RemoveEntryList(Entry);
            return Irp;
        }
    }
    return NULL;
}

/* Requests with cancel routines of their own, in a list under a lock. */
typedef struct _READS {
    KSPIN_LOCK Lock;
    LIST_ENTRY Irps;
} READS, *PREADS;

static inline VOID InitializeReads(PREADS Reads) {
    KeInitializeSpinLock(&Reads->Lock);
    InitializeListHead(&Reads->Irps);
}

/* The request is marked pending. It waits, or is completed. */
static inline VOID WaitIn(PREADS Reads, PIRP Irp, PDRIVER_CANCEL Routine) {
    BOOLEAN Waits;
    KIRQL Irql;
    KeAcquireSpinLock(&Reads->Lock, &Irql);
    Waits = ArmIn(&Reads->Irps, Irp, Routine);
    KeReleaseSpinLock(&Reads->Lock, Irql);
    if (!Waits) {
        Complete(Irp, STATUS_CANCELLED);
    }
}

/* TakeFrom, with the lock. */
static inline PIRP Take(PREADS Reads, PFILE_OBJECT File) {
    PIRP Irp;
    KIRQL Irql;
    KeAcquireSpinLock(&Reads->Lock, &Irql);
    Irp = TakeFrom(&Reads->Irps, File);
    KeReleaseSpinLock(&Reads->Lock, Irql);
    return Irp;
}

/* All that most cancel routines do. */
static inline VOID CancelIn(PREADS Reads, PIRP Irp) {
    KIRQL Irql;
    IoReleaseCancelSpinLock(Irp->CancelIrql);
    KeAcquireSpinLock(&Reads->Lock, &Irql);
    RemoveEntryList(&Irp->Tail.Overlay.ListEntry);
    KeReleaseSpinLock(&Reads->Lock, Irql);
    Complete(Irp, STATUS_CANCELLED);
}

/* ---- Without an IO_CSQ, if READS are the first in the device's extension ---- */
static inline VOID NTAPI CancelInReads(PDEVICE_OBJECT DeviceObject, PIRP Irp) {
    CancelIn(DeviceObject->DeviceExtension, Irp);
}

/* The same of a driver that takes its lock while it has the cancel spin lock. */
static inline VOID NTAPI CancelWithin(PDEVICE_OBJECT DeviceObject, PIRP Irp) {
    PREADS Reads = DeviceObject->DeviceExtension;
    KeAcquireSpinLockAtDpcLevel(&Reads->Lock);
    RemoveEntryList(&Irp->Tail.Overlay.ListEntry);
    KeReleaseSpinLockFromDpcLevel(&Reads->Lock);
    IoReleaseCancelSpinLock(Irp->CancelIrql);
    Complete(Irp, STATUS_CANCELLED);
}

static inline NTSTATUS NTAPI WriteToReads(PDEVICE_OBJECT DeviceObject, PIRP Irp) {
    return CompleteBoth(Take(DeviceObject->DeviceExtension, NULL), Irp);
}

static inline NTSTATUS NTAPI CleanupReads(PDEVICE_OBJECT DeviceObject, PIRP Irp) {
    PREADS Reads = DeviceObject->DeviceExtension;
    PIRP Left;
    MarkClosed(&Reads->Lock, FileOf(Irp));
    while ((Left = Take(Reads, FileOf(Irp))) != NULL) {
        Complete(Left, STATUS_CANCELLED);
    }
    return Complete(Irp, STATUS_SUCCESS);
}

/* Begin, with its READS. */
static inline PVOID BeginReads(PDRIVER_OBJECT DriverObject, ULONG ExtensionSize,
                               PDRIVER_DISPATCH Read, PDRIVER_DISPATCH Write,
                               PDRIVER_DISPATCH Cleanup) {
    PREADS Reads = Begin(DriverObject, ExtensionSize, Read, Write, Cleanup);
    if (Reads != NULL) {
        InitializeReads(Reads);
    }
    return Reads;
}

#endif
