/* Reads wait in a list under the system's cancel spin lock, as in the older of the WDK's documents:
 * while a thread has that lock, no IRP's Cancel flag is set, and no cancel routine is taken. A
 * write completes the oldest. */
#include "device.h"

typedef struct _EXTENSION {
    LIST_ENTRY Reads; /* under the cancel spin lock, as FsContext is */
} EXTENSION, *PEXTENSION;

DRIVER_INITIALIZE DriverEntry;
static DRIVER_DISPATCH Read, Write, Cleanup;
static DRIVER_CANCEL CancelRead;
static TAKE Take;

/* IoCancelIrp comes with the cancel spin lock. */
static VOID NTAPI CancelRead(PDEVICE_OBJECT DeviceObject, PIRP Irp) {
    UNREFERENCED_PARAMETER(DeviceObject);
#if WRONG == 2
    IoReleaseCancelSpinLock(Irp->CancelIrql);
    RemoveEntryList(&Irp->Tail.Overlay.ListEntry);
#elif WRONG == 3
    RemoveEntryList(&Irp->Tail.Overlay.ListEntry);
#else
    RemoveEntryList(&Irp->Tail.Overlay.ListEntry);
    IoReleaseCancelSpinLock(Irp->CancelIrql);
#endif
    Complete(Irp, STATUS_CANCELLED);
}

static NTSTATUS NTAPI Read(PDEVICE_OBJECT DeviceObject, PIRP Irp) {
    PEXTENSION Extension = DeviceObject->DeviceExtension;
    KIRQL Irql;
    BOOLEAN Cancelled = FALSE;
#if WRONG == 1
    Cancelled = Irp->Cancel;
    IoAcquireCancelSpinLock(&Irql);
#else
    IoAcquireCancelSpinLock(&Irql);
    Cancelled = Irp->Cancel;
#endif
    if (Cancelled || FileOf(Irp)->FsContext != NULL) {
        IoReleaseCancelSpinLock(Irql);
        return Complete(Irp, STATUS_CANCELLED);
    }
    IoMarkIrpPending(Irp);
    IoSetCancelRoutine(Irp, CancelRead);
    InsertTailList(&Extension->Reads, &Irp->Tail.Overlay.ListEntry);
    IoReleaseCancelSpinLock(Irql);
    return STATUS_PENDING;
}

/* While the cancel spin lock is held, what is in the list has its routine: so nobody looks at what
 * IoSetCancelRoutine returns. */
static BOOLEAN Take(PIRP Irp, PFILE_OBJECT File) {
    UNREFERENCED_PARAMETER(File);
    RemoveEntryList(&Irp->Tail.Overlay.ListEntry);
    if (WRONG != 4) {
        IoSetCancelRoutine(Irp, NULL);
    }
    return TRUE;
}

/* The oldest read, of this file object or, if it is null, of any. */
static PIRP TakeOldest(PEXTENSION Extension, PFILE_OBJECT File) {
    PIRP Irp;
    KIRQL Irql;
    IoAcquireCancelSpinLock(&Irql);
    Irp = TakeFirst(&Extension->Reads, File, Take);
    IoReleaseCancelSpinLock(Irql);
    return Irp;
}

static NTSTATUS NTAPI Write(PDEVICE_OBJECT DeviceObject, PIRP Irp) {
    return CompleteBoth(TakeOldest(DeviceObject->DeviceExtension, NULL), Irp);
}

static NTSTATUS NTAPI Cleanup(PDEVICE_OBJECT DeviceObject, PIRP Irp) {
    PFILE_OBJECT File = FileOf(Irp);
    PIRP Left;
    KIRQL Irql;
    IoAcquireCancelSpinLock(&Irql);
    File->FsContext = File; /* a read that comes late doesn't wait any more */
    IoReleaseCancelSpinLock(Irql);
    while ((Left = TakeOldest(DeviceObject->DeviceExtension, File)) != NULL) {
        Complete(Left, STATUS_CANCELLED);
    }
    return Complete(Irp, STATUS_SUCCESS);
}

NTSTATUS NTAPI DriverEntry(PDRIVER_OBJECT DriverObject, PUNICODE_STRING RegistryPath) {
    PEXTENSION Extension = Begin(DriverObject, sizeof(EXTENSION), Read, Write, Cleanup,
                                 UnloadDevice);
    UNREFERENCED_PARAMETER(RegistryPath);
    if (Extension == NULL) {
        return STATUS_INSUFFICIENT_RESOURCES;
    }
    InitializeListHead(&Extension->Reads);
    return STATUS_SUCCESS;
}
