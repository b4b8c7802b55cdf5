/* Cancelled IRPs are completed later: what the device does for one has to be stopped at
 * PASSIVE_LEVEL, so CsqCompleteCanceledIrp puts it aside, and a work item completes what lies
 * there. */
#include "waiting.h"

typedef struct _EXTENSION {
    WAITING Reads;
    LIST_ENTRY Cancelled; /* under Lock */
    KSPIN_LOCK Lock;
    PIO_WORKITEM Item;
    LONG Queued; /* whether the work item is, or has yet to look at Cancelled */
} EXTENSION, *PEXTENSION;

static PIRP TakeCancelled(PEXTENSION Extension) {
    PIRP Irp = NULL;
    KIRQL Irql;
    KeAcquireSpinLock(&Extension->Lock, &Irql);
    if (!IsListEmpty(&Extension->Cancelled)) {
        Irp = CONTAINING_RECORD(RemoveHeadList(&Extension->Cancelled), IRP, Tail.Overlay.ListEntry);
    }
    KeReleaseSpinLock(&Extension->Lock, Irql);
    return Irp;
}

/* The word is cleared first: what is put aside from then on queues the work item anew. */
static IO_WORKITEM_ROUTINE CompleteThem;
static VOID NTAPI CompleteThem(PDEVICE_OBJECT DeviceObject, PVOID Context) {
    PEXTENSION Extension = Context;
    PIRP Irp;
    UNREFERENCED_PARAMETER(DeviceObject);
    InterlockedExchange(&Extension->Queued, FALSE);
    while ((Irp = TakeCancelled(Extension)) != NULL) {
#if WRONG == 2
        Wait(&Extension->Reads, Irp); /* once more, in the place of its completion */
#else
        Finish(Irp, WRONG == 1 ? STATUS_SUCCESS : STATUS_CANCELLED, 0);
#endif
    }
}

static VOID NTAPI CompleteLater(PIO_CSQ Csq, PIRP Irp) {
    PEXTENSION Extension =
        CONTAINING_RECORD(CONTAINING_RECORD(Csq, WAITING, Queue), EXTENSION, Reads);
    KIRQL Irql;
    KeAcquireSpinLock(&Extension->Lock, &Irql);
    InsertTailList(&Extension->Cancelled, &Irp->Tail.Overlay.ListEntry);
    KeReleaseSpinLock(&Extension->Lock, Irql);
    if (InterlockedExchange(&Extension->Queued, TRUE) == FALSE) {
        IoQueueWorkItem(Extension->Item, CompleteThem, DelayedWorkQueue, Extension);
    }
}

static NTSTATUS NTAPI Read(PDEVICE_OBJECT DeviceObject, PIRP Irp) {
    return Wait(&((PEXTENSION)DeviceObject->DeviceExtension)->Reads, Irp);
}

static NTSTATUS NTAPI Write(PDEVICE_OBJECT DeviceObject, PIRP Irp) {
    PEXTENSION Extension = DeviceObject->DeviceExtension;
    PIRP Waiting = IoCsqRemoveNextIrp(&Extension->Reads.Queue, FileOf(Irp));
    if (Waiting != NULL) {
        Finish(Waiting, STATUS_SUCCESS, 1);
    }
    return Succeed(DeviceObject, Irp);
}

static NTSTATUS NTAPI Cleanup(PDEVICE_OBJECT DeviceObject, PIRP Irp) {
    CleanUp(&((PEXTENSION)DeviceObject->DeviceExtension)->Reads, FileOf(Irp));
    return Succeed(DeviceObject, Irp);
}

static VOID NTAPI Unload(PDRIVER_OBJECT DriverObject) {
    IoFreeWorkItem(((PEXTENSION)DriverObject->DeviceObject->DeviceExtension)->Item);
    IoDeleteDevice(DriverObject->DeviceObject);
}

DRIVER_INITIALIZE DriverEntry;
NTSTATUS NTAPI DriverEntry(PDRIVER_OBJECT DriverObject, PUNICODE_STRING RegistryPath) {
    PDEVICE_OBJECT DeviceObject;
    PEXTENSION Extension;
    NTSTATUS Status = MakeDevice(DriverObject, sizeof(EXTENSION), &DeviceObject);
    UNREFERENCED_PARAMETER(RegistryPath);
    if (!NT_SUCCESS(Status)) {
        return Status;
    }
    Extension = DeviceObject->DeviceExtension;
    InitializeListHead(&Extension->Cancelled);
    KeInitializeSpinLock(&Extension->Lock);
    Extension->Item = IoAllocateWorkItem(DeviceObject);
    if (Extension->Item == NULL) {
        IoDeleteDevice(DeviceObject);
        return STATUS_INSUFFICIENT_RESOURCES;
    }
    InitializeWaiting(&Extension->Reads, CompleteLater);
    DriverObject->DriverUnload = Unload;
    DriverObject->MajorFunction[IRP_MJ_READ] = Read;
    DriverObject->MajorFunction[IRP_MJ_WRITE] = Write;
    DriverObject->MajorFunction[IRP_MJ_CLEANUP] = Cleanup;
    return STATUS_SUCCESS;
}
