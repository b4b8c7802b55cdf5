/* One read waits at a time, in no list, and others are refused. The cancel routine leaves the
 * completion to a DPC, which frees the slot. A write completes the read. */
#include "device.h"

typedef struct _EXTENSION {
    KSPIN_LOCK Lock;
    PIRP Current, Cancelled; /* under Lock: the read that waits; the same, for the DPC */
    KDPC Dpc;
} EXTENSION, *PEXTENSION;

DRIVER_INITIALIZE DriverEntry;
static DRIVER_UNLOAD Unload;
static DRIVER_DISPATCH Read, Write, Cleanup;
static DRIVER_CANCEL CancelRead;
static KDEFERRED_ROUTINE CompleteCancelled;

static VOID NTAPI CancelRead(PDEVICE_OBJECT DeviceObject, PIRP Irp) {
    PEXTENSION Extension = DeviceObject->DeviceExtension;
    KIRQL Irql;
    IoReleaseCancelSpinLock(Irp->CancelIrql);
    KeAcquireSpinLock(&Extension->Lock, &Irql);
    Extension->Cancelled = Irp;
    KeReleaseSpinLock(&Extension->Lock, Irql);
    KeInsertQueueDpc(&Extension->Dpc, NULL, NULL);
}

static VOID NTAPI CompleteCancelled(PKDPC Dpc, PVOID Context, PVOID First, PVOID Second) {
    PEXTENSION Extension = Context;
    PIRP Irp;
    UNREFERENCED_PARAMETER(Dpc);
    UNREFERENCED_PARAMETER(First);
    UNREFERENCED_PARAMETER(Second);
    KeAcquireSpinLockAtDpcLevel(&Extension->Lock);
    Irp = Extension->Cancelled;
    if (Irp != NULL) {
        Extension->Current = Extension->Cancelled = NULL;
    }
    KeReleaseSpinLockFromDpcLevel(&Extension->Lock);
    if (Irp != NULL) {
        Complete(Irp, STATUS_CANCELLED);
    }
}

/* The lock is held. STATUS_PENDING: the read waits. */
static NTSTATUS Fill(PEXTENSION Extension, PIRP Irp) {
    if (Extension->Current != NULL || FileOf(Irp)->FsContext != NULL) {
        return STATUS_DEVICE_BUSY;
    }
    Extension->Current = Irp;
    IoMarkIrpPending(Irp);
    IoSetCancelRoutine(Irp, CancelRead);
    if (Irp->Cancel && IoSetCancelRoutine(Irp, NULL) != NULL) {
        Extension->Current = NULL;
        return STATUS_CANCELLED;
    }
    return STATUS_PENDING;
}

static NTSTATUS NTAPI Read(PDEVICE_OBJECT DeviceObject, PIRP Irp) {
    PEXTENSION Extension = DeviceObject->DeviceExtension;
    KIRQL Irql;
    NTSTATUS Status;
    KeAcquireSpinLock(&Extension->Lock, &Irql);
    Status = Fill(Extension, Irp);
    KeReleaseSpinLock(&Extension->Lock, Irql);
    if (Status != STATUS_PENDING) {
        Complete(Irp, Status);
    }
    return Status == STATUS_DEVICE_BUSY ? Status : STATUS_PENDING;
}

/* The read that waits, if no cancel has it, and it is of this file object or File is null. */
static PIRP Empty(PEXTENSION Extension, PFILE_OBJECT File) {
    PIRP Irp;
    KIRQL Irql;
    KeAcquireSpinLock(&Extension->Lock, &Irql);
    Irp = Extension->Current;
    if (Irp != NULL && (File == NULL || FileOf(Irp) == File) &&
        (IoSetCancelRoutine(Irp, NULL) != NULL || WRONG == 1)) {
        Extension->Current = NULL;
    } else {
        Irp = NULL;
    }
    KeReleaseSpinLock(&Extension->Lock, Irql);
    return Irp;
}

static NTSTATUS NTAPI Write(PDEVICE_OBJECT DeviceObject, PIRP Irp) {
    return CompleteBoth(Empty(DeviceObject->DeviceExtension, NULL), Irp);
}

static NTSTATUS NTAPI Cleanup(PDEVICE_OBJECT DeviceObject, PIRP Irp) {
    PEXTENSION Extension = DeviceObject->DeviceExtension;
    PIRP Left;
    MarkClosed(&Extension->Lock, FileOf(Irp));
    Left = Empty(Extension, FileOf(Irp));
    if (Left != NULL) {
        Complete(Left, STATUS_CANCELLED);
    }
    return Complete(Irp, STATUS_SUCCESS);
}

static VOID NTAPI Unload(PDRIVER_OBJECT DriverObject) {
#if WRONG != 2
    KeFlushQueuedDpcs();
#endif
    IoDeleteDevice(DriverObject->DeviceObject);
}

NTSTATUS NTAPI DriverEntry(PDRIVER_OBJECT DriverObject, PUNICODE_STRING RegistryPath) {
    PEXTENSION Extension = Begin(DriverObject, sizeof(EXTENSION), Read, Write, Cleanup, Unload);
    UNREFERENCED_PARAMETER(RegistryPath);
    if (Extension == NULL) {
        return STATUS_INSUFFICIENT_RESOURCES;
    }
    KeInitializeSpinLock(&Extension->Lock);
    KeInitializeDpc(&Extension->Dpc, CompleteCancelled, Extension);
    return STATUS_SUCCESS;
}
