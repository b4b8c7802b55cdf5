/* Reads wait in a list under a spin lock of the driver's own, as the WDK's documents have a queue
 * that a driver manages itself. A write completes the oldest. */
#include "device.h"

typedef struct _EXTENSION {
    KSPIN_LOCK Lock;
    LIST_ENTRY Reads; /* under Lock, as FsContext is: not null once the file object is cleaned up */
} EXTENSION, *PEXTENSION;

DRIVER_INITIALIZE DriverEntry;
static DRIVER_DISPATCH Read, Write, Cleanup;
static DRIVER_CANCEL CancelRead;
static TAKE Take;

static VOID NTAPI CancelRead(PDEVICE_OBJECT DeviceObject, PIRP Irp) {
    PEXTENSION Extension = DeviceObject->DeviceExtension;
    KIRQL Irql;
#if WRONG == 6
    IoReleaseCancelSpinLock(PASSIVE_LEVEL);
#elif WRONG != 5
    IoReleaseCancelSpinLock(Irp->CancelIrql);
#endif
    KeAcquireSpinLock(&Extension->Lock, &Irql);
#if WRONG != 4
    RemoveEntryList(&Irp->Tail.Overlay.ListEntry);
#endif
    KeReleaseSpinLock(&Extension->Lock, Irql);
#if WRONG != 8
    Complete(Irp, STATUS_CANCELLED);
#endif
}

/* Whether the read waits. If not, a cancel or the cleanup of its file object came first, and the
 * caller completes it. The lock is held. */
static BOOLEAN Queue(PEXTENSION Extension, PIRP Irp) {
    IoMarkIrpPending(Irp);
    if (WRONG != 10 && FileOf(Irp)->FsContext != NULL) {
        return FALSE;
    }
#if WRONG == 3
    if (Irp->Cancel) {
        return FALSE;
    }
#endif
    InsertTailList(&Extension->Reads, &Irp->Tail.Overlay.ListEntry);
    IoSetCancelRoutine(Irp, CancelRead);
#if WRONG != 2 && WRONG != 3
    if (Irp->Cancel && IoSetCancelRoutine(Irp, NULL) != NULL) {
        RemoveEntryList(&Irp->Tail.Overlay.ListEntry);
        return FALSE;
    }
#endif
    return TRUE;
}

static NTSTATUS NTAPI Read(PDEVICE_OBJECT DeviceObject, PIRP Irp) {
    PEXTENSION Extension = DeviceObject->DeviceExtension;
    KIRQL Irql;
    BOOLEAN Waits;
    KeAcquireSpinLock(&Extension->Lock, &Irql);
    Waits = Queue(Extension, Irp);
    KeReleaseSpinLock(&Extension->Lock, Irql);
    if (!Waits) {
        Complete(Irp, STATUS_CANCELLED);
    }
    return STATUS_PENDING;
}

/* Whether the caller gets the read, which is taken off the list. If not, its cancel routine is
 * about to run, and to unlink it from itself. */
static BOOLEAN Take(PIRP Irp, PFILE_OBJECT File) {
    PLIST_ENTRY Entry = &Irp->Tail.Overlay.ListEntry;
    RemoveEntryList(Entry);
#if WRONG == 1
    UNREFERENCED_PARAMETER(File);
    IoSetCancelRoutine(Irp, NULL);
    return TRUE;
#else
    if (IoSetCancelRoutine(Irp, NULL) != NULL || (WRONG == 7 && File != NULL)) {
        return TRUE;
    }
    InitializeListHead(Entry);
    return FALSE;
#endif
}

static NTSTATUS NTAPI Write(PDEVICE_OBJECT DeviceObject, PIRP Irp) {
    PEXTENSION Extension = DeviceObject->DeviceExtension;
    PIRP Oldest = Dequeue(&Extension->Lock, &Extension->Reads, NULL, Take);
    if (Oldest != NULL) {
        Complete(Oldest, STATUS_SUCCESS);
#if WRONG == 11
        IoCancelIrp(Oldest); /* in case that its sender waits for a cancel */
#endif
    }
    return Complete(Irp, STATUS_SUCCESS);
}

static NTSTATUS NTAPI Cleanup(PDEVICE_OBJECT DeviceObject, PIRP Irp) {
    PEXTENSION Extension = DeviceObject->DeviceExtension;
    PFILE_OBJECT File = FileOf(Irp);
    PIRP Left;
    MarkClosed(&Extension->Lock, File);
    while (WRONG != 9 &&
           (Left = Dequeue(&Extension->Lock, &Extension->Reads, File, Take)) != NULL) {
        Complete(Left, STATUS_CANCELLED);
    }
    return Complete(Irp, STATUS_SUCCESS);
}

NTSTATUS NTAPI DriverEntry(PDRIVER_OBJECT DriverObject, PUNICODE_STRING RegistryPath) {
    PEXTENSION Extension = Begin(DriverObject, sizeof(EXTENSION), Read, Write, Cleanup,
                                 UnloadDevice);
    UNREFERENCED_PARAMETER(RegistryPath);
    if (Extension == NULL) {
        return STATUS_INSUFFICIENT_RESOURCES;
    }
    KeInitializeSpinLock(&Extension->Lock);
    InitializeListHead(&Extension->Reads);
    return STATUS_SUCCESS;
}
