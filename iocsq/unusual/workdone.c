/* A work item completes what is removed or cancelled, at PASSIVE_LEVEL. There is one, which is
 * queued where the list of these was empty; its routine goes on until it finds none. */
#include "removed.h"

typedef struct _EXTENSION {
    WAITING Reads;
    KSPIN_LOCK Lock;
    LIST_ENTRY Done;    /* under Lock, with the next */
    BOOLEAN Working;    /* the item is queued, or its routine has yet to find none */
    PIO_WORKITEM Item;
} EXTENSION, *PEXTENSION;

static DRIVER_UNLOAD Unload;
static DRIVER_DISPATCH Write;
static IO_WORKITEM_ROUTINE CompleteDone;

static VOID End(PVOID DeviceExtension, PIRP Irp, NTSTATUS Status) {
    PEXTENSION Extension = DeviceExtension;
    BOOLEAN WasWorking;
    KIRQL Irql;
    Irp->IoStatus.Status = Status;
    Irp->IoStatus.Information = 0;
    KeAcquireSpinLock(&Extension->Lock, &Irql);
    InsertTailList(&Extension->Done, &Irp->Tail.Overlay.ListEntry);
    WasWorking = Extension->Working;
    Extension->Working = TRUE;
    KeReleaseSpinLock(&Extension->Lock, Irql);
    if (!WasWorking) {
        IoQueueWorkItem(Extension->Item, CompleteDone, DelayedWorkQueue, Extension);
    }
}

/* The next to be completed. Null: none, and the routine ends. */
static PIRP NextDone(PEXTENSION Extension) {
    PIRP Irp = NULL;
    KIRQL Irql;
    KeAcquireSpinLock(&Extension->Lock, &Irql);
    if (IsListEmpty(&Extension->Done)) {
        Extension->Working = FALSE;
    } else {
        Irp = OfEntry(RemoveHeadList(&Extension->Done));
    }
    KeReleaseSpinLock(&Extension->Lock, Irql);
    return Irp;
}

static VOID NTAPI CompleteDone(PDEVICE_OBJECT DeviceObject, PVOID Context) {
    PIRP Irp;
    UNREFERENCED_PARAMETER(DeviceObject);
    while ((Irp = NextDone(Context)) != NULL) {
        IoCompleteRequest(Irp, IO_NO_INCREMENT);
    }
}

static NTSTATUS NTAPI Write(PDEVICE_OBJECT DeviceObject, PIRP Irp) {
    EndOldest(DeviceObject->DeviceExtension);
    return Complete(Irp, STATUS_SUCCESS);
}

/* The I/O manager keeps the device until the work item's routine has returned. */
static VOID NTAPI Unload(PDRIVER_OBJECT DriverObject) {
    PEXTENSION Extension = DriverObject->DeviceObject->DeviceExtension;
    IoFreeWorkItem(Extension->Item);
    IoDeleteDevice(DriverObject->DeviceObject);
}

NTSTATUS NTAPI DriverEntry(PDRIVER_OBJECT DriverObject, PUNICODE_STRING RegistryPath) {
    PEXTENSION Extension = Begin(DriverObject, sizeof(EXTENSION), QueueRead, Write, EndAtCleanup);
    UNREFERENCED_PARAMETER(RegistryPath);
    if (Extension == NULL) {
        return STATUS_INSUFFICIENT_RESOURCES;
    }
    DriverObject->DriverUnload = Unload;
    Extension->Item = IoAllocateWorkItem(DriverObject->DeviceObject);
    if (Extension->Item == NULL) {
        IoDeleteDevice(DriverObject->DeviceObject);
        return STATUS_INSUFFICIENT_RESOURCES;
    }
    KeInitializeSpinLock(&Extension->Lock);
    InitializeListHead(&Extension->Done);
    InitializeWaiting(&Extension->Reads, EndCanceled);
    return STATUS_SUCCESS;
}
