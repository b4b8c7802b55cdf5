/* Reads wait in a list under a spin lock of the driver's own, until a timer's DPC ends all of them
 * with STATUS_IO_TIMEOUT. */
#include "device.h"

typedef struct _EXTENSION {
    KSPIN_LOCK Lock;
    LIST_ENTRY Reads; /* under Lock, as FsContext is */
    KTIMER Timer;     /* set while there are some */
    KDPC TimeOver;
} EXTENSION, *PEXTENSION;

DRIVER_INITIALIZE DriverEntry;
static DRIVER_UNLOAD Unload;
static DRIVER_DISPATCH Read, Cleanup;
static DRIVER_CANCEL CancelRead;
static KDEFERRED_ROUTINE EndReads;
static TAKE Take;

static VOID NTAPI CancelRead(PDEVICE_OBJECT DeviceObject, PIRP Irp) {
    PEXTENSION Extension = DeviceObject->DeviceExtension;
    KIRQL Irql = Irp->CancelIrql;
    KeAcquireSpinLockAtDpcLevel(&Extension->Lock);
    IoReleaseCancelSpinLock(DISPATCH_LEVEL);
    RemoveEntryList(&Irp->Tail.Overlay.ListEntry);
    KeReleaseSpinLock(&Extension->Lock, Irql);
    Complete(Irp, STATUS_CANCELLED);
#if WRONG == 2
    KeCancelTimer(&Extension->Timer); /* as if no other read could wait */
#endif
}

static BOOLEAN Take(PIRP Irp, PFILE_OBJECT File) {
    PLIST_ENTRY Entry = &Irp->Tail.Overlay.ListEntry;
    RemoveEntryList(Entry);
    InitializeListHead(Entry); /* its cancel routine may be about to unlink it from itself */
    return IoSetCancelRoutine(Irp, NULL) != NULL || (WRONG == 1 && File == NULL);
}

static VOID NTAPI EndReads(PKDPC Dpc, PVOID Context, PVOID First, PVOID Second) {
    PEXTENSION Extension = Context;
    PIRP Irp;
    UNREFERENCED_PARAMETER(Dpc);
    UNREFERENCED_PARAMETER(First);
    UNREFERENCED_PARAMETER(Second);
    while ((Irp = Dequeue(&Extension->Lock, &Extension->Reads, NULL, Take)) != NULL) {
        Complete(Irp, STATUS_IO_TIMEOUT);
    }
}

static VOID SetTimer(PEXTENSION Extension) {
    LARGE_INTEGER Soon;
    Soon.QuadPart = -3000; /* 300 microseconds */
    KeSetTimer(&Extension->Timer, Soon, &Extension->TimeOver);
}

/* Whether it waits. The lock is held. */
static BOOLEAN Queue(PEXTENSION Extension, PIRP Irp) {
    if (FileOf(Irp)->FsContext != NULL) {
        return FALSE;
    }
    InsertTailList(&Extension->Reads, &Irp->Tail.Overlay.ListEntry);
    IoSetCancelRoutine(Irp, CancelRead);
    if (Irp->Cancel && IoSetCancelRoutine(Irp, NULL) != NULL) {
        RemoveEntryList(&Irp->Tail.Overlay.ListEntry);
        return FALSE;
    }
    return TRUE;
}

static NTSTATUS NTAPI Read(PDEVICE_OBJECT DeviceObject, PIRP Irp) {
    PEXTENSION Extension = DeviceObject->DeviceExtension;
    KIRQL Irql;
    BOOLEAN Waits;
    IoMarkIrpPending(Irp);
    KeAcquireSpinLock(&Extension->Lock, &Irql);
    Waits = Queue(Extension, Irp);
    if (Waits) {
        SetTimer(Extension);
    }
    KeReleaseSpinLock(&Extension->Lock, Irql);
    if (!Waits) {
        Complete(Irp, STATUS_CANCELLED);
    }
    return STATUS_PENDING;
}

static NTSTATUS NTAPI Cleanup(PDEVICE_OBJECT DeviceObject, PIRP Irp) {
    PEXTENSION Extension = DeviceObject->DeviceExtension;
    return CleanUp(&Extension->Lock, &Extension->Reads, Irp, Take);
}

static VOID NTAPI Unload(PDRIVER_OBJECT DriverObject) {
    PEXTENSION Extension = DriverObject->DeviceObject->DeviceExtension;
    KeCancelTimer(&Extension->Timer);
    KeFlushQueuedDpcs();
    IoDeleteDevice(DriverObject->DeviceObject);
}

NTSTATUS NTAPI DriverEntry(PDRIVER_OBJECT DriverObject, PUNICODE_STRING RegistryPath) {
    PEXTENSION Extension = Begin(DriverObject, sizeof(EXTENSION), Read, Succeed, Cleanup, Unload);
    UNREFERENCED_PARAMETER(RegistryPath);
    if (Extension == NULL) {
        return STATUS_INSUFFICIENT_RESOURCES;
    }
    KeInitializeSpinLock(&Extension->Lock);
    InitializeListHead(&Extension->Reads);
    KeInitializeTimer(&Extension->Timer);
    KeInitializeDpc(&Extension->TimeOver, EndReads, Extension);
    return STATUS_SUCCESS;
}
