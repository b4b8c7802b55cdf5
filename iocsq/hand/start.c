/* A device that works at one request at a time, in the style of StartIo: the others wait in a list
 * under the system's cancel spin lock. A DPC, as after an interrupt, completes the request at which
 * the device works, and starts the next. That one has no cancel routine: it ends soon by itself. */
#include "device.h"

typedef struct _EXTENSION {
    LIST_ENTRY Waiting; /* under the cancel spin lock, with Current, as FsContext is */
    PIRP Current;
    WORK Work;
} EXTENSION, *PEXTENSION;

DRIVER_INITIALIZE DriverEntry;
static DRIVER_DISPATCH ReadWrite, Cleanup;
static DRIVER_CANCEL CancelWaiting;
static KDEFERRED_ROUTINE WorkDone;
static TAKE Take;

static VOID NTAPI CancelWaiting(PDEVICE_OBJECT DeviceObject, PIRP Irp) {
    UNREFERENCED_PARAMETER(DeviceObject);
    RemoveEntryList(&Irp->Tail.Overlay.ListEntry);
    IoReleaseCancelSpinLock(Irp->CancelIrql);
    Complete(Irp, STATUS_CANCELLED);
}

/* The first that waits becomes the current one, or none. The cancel spin lock is held. */
static BOOLEAN TakeNext(PEXTENSION Extension) {
    if (IsListEmpty(&Extension->Waiting)) {
        Extension->Current = NULL;
        return FALSE;
    }
    Extension->Current = CONTAINING_RECORD(RemoveHeadList(&Extension->Waiting), IRP,
                                           Tail.Overlay.ListEntry);
    if (WRONG != 2) {
        IoSetCancelRoutine(Extension->Current, NULL);
    }
    return TRUE;
}

static VOID NTAPI WorkDone(PKDPC Dpc, PVOID Context, PVOID First, PVOID Second) {
    PEXTENSION Extension = Context;
    PIRP Irp = Extension->Current;
    BOOLEAN More;
    KIRQL Irql;
    UNREFERENCED_PARAMETER(Dpc);
    UNREFERENCED_PARAMETER(First);
    UNREFERENCED_PARAMETER(Second);
#if WRONG == 1
    UNREFERENCED_PARAMETER(Irql);
    More = TakeNext(Extension);
#else
    IoAcquireCancelSpinLock(&Irql);
    More = TakeNext(Extension);
    IoReleaseCancelSpinLock(Irql);
#endif
    Complete(Irp, STATUS_SUCCESS);
    if (More) {
        StartWork(&Extension->Work);
    }
}

/* The cancel spin lock is held. STATUS_PENDING: the request waits; STATUS_SUCCESS: it is the
 * current one, and has yet to be started. */
static NTSTATUS Queue(PEXTENSION Extension, PIRP Irp) {
    if (Irp->Cancel || FileOf(Irp)->FsContext != NULL) {
        return STATUS_CANCELLED;
    }
    IoMarkIrpPending(Irp);
    if (Extension->Current == NULL) {
        Extension->Current = Irp;
        return STATUS_SUCCESS;
    }
    IoSetCancelRoutine(Irp, CancelWaiting);
    InsertTailList(&Extension->Waiting, &Irp->Tail.Overlay.ListEntry);
    return STATUS_PENDING;
}

static NTSTATUS NTAPI ReadWrite(PDEVICE_OBJECT DeviceObject, PIRP Irp) {
    PEXTENSION Extension = DeviceObject->DeviceExtension;
    NTSTATUS Status;
    KIRQL Irql;
    IoAcquireCancelSpinLock(&Irql);
    Status = Queue(Extension, Irp);
    IoReleaseCancelSpinLock(Irql);
    if (Status == STATUS_CANCELLED) {
        return Complete(Irp, Status);
    }
    if (Status == STATUS_SUCCESS) {
        StartWork(&Extension->Work);
    }
    return STATUS_PENDING;
}

static BOOLEAN Take(PIRP Irp, PFILE_OBJECT File) {
    UNREFERENCED_PARAMETER(File);
    RemoveEntryList(&Irp->Tail.Overlay.ListEntry);
    IoSetCancelRoutine(Irp, NULL);
    return TRUE;
}

/* One of this file object that waits; null: there is none. */
static PIRP TakeLeft(PEXTENSION Extension, PFILE_OBJECT File) {
    PIRP Irp;
    KIRQL Irql;
    IoAcquireCancelSpinLock(&Irql);
    File->FsContext = File; /* a request that comes late doesn't wait any more */
    Irp = TakeFirst(&Extension->Waiting, File, Take);
    IoReleaseCancelSpinLock(Irql);
    return Irp;
}

static NTSTATUS NTAPI Cleanup(PDEVICE_OBJECT DeviceObject, PIRP Irp) {
    PIRP Left;
    while ((Left = TakeLeft(DeviceObject->DeviceExtension, FileOf(Irp))) != NULL) {
        Complete(Left, STATUS_CANCELLED);
#if WRONG == 3
        break; /* as if no more than one could wait */
#endif
    }
    return Complete(Irp, STATUS_SUCCESS);
}

NTSTATUS NTAPI DriverEntry(PDRIVER_OBJECT DriverObject, PUNICODE_STRING RegistryPath) {
    PEXTENSION Extension = Begin(DriverObject, sizeof(EXTENSION), ReadWrite, ReadWrite, Cleanup,
                                 UnloadAfterDpcs);
    UNREFERENCED_PARAMETER(RegistryPath);
    if (Extension == NULL) {
        return STATUS_INSUFFICIENT_RESOURCES;
    }
    InitializeListHead(&Extension->Waiting);
    InitializeWork(&Extension->Work, WorkDone, Extension);
    return STATUS_SUCCESS;
}
