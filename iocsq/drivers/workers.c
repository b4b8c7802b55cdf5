/* A work item: it completes the reads that a dispatch routine has queued. It is queued at most once
 * at a time. */
#include "waiting.h"

typedef struct _EXTENSION {
    WAITING Reads;
    PIO_WORKITEM WorkItem;
    BOOLEAN Queued; /* the work item is; under Reads.Lock */
    LONG Users;     /* 1 for the device, and 1 for each time that the work item was queued and
                     * hasn't run */
    KEVENT Unused;  /* signaled once there are none */
} EXTENSION, *PEXTENSION;

/* The flag, changed to this; what it was. */
static BOOLEAN SetQueued(PEXTENSION Extension, BOOLEAN Queued) {
    BOOLEAN Before;
    KIRQL Irql;
    KeAcquireSpinLock(&Extension->Reads.Lock, &Irql);
    Before = Extension->Queued;
    Extension->Queued = Queued;
    KeReleaseSpinLock(&Extension->Reads.Lock, Irql);
    return Before;
}

static VOID Leave(PEXTENSION Extension) {
    if (InterlockedDecrement(&Extension->Users) == 0) {
        KeSetEvent(&Extension->Unused, IO_NO_INCREMENT, FALSE);
    }
}

static IO_WORKITEM_ROUTINE Work;
static VOID NTAPI Work(PDEVICE_OBJECT DeviceObject, PVOID Context) {
    PEXTENSION Extension = Context;
    PIRP Irp;
    UNREFERENCED_PARAMETER(DeviceObject);
    Leave(Extension); /* it isn't queued any more, and until it returns it keeps the device, which
                       * may be deleted */
#if WRONG != 3
    SetQueued(Extension, FALSE); /* before the loop: what comes after it queues the work item
                                  * again */
#endif
    while ((Irp = IoCsqRemoveNextIrp(&Extension->Reads.Queue, NULL)) != NULL) {
        Finish(Irp, STATUS_SUCCESS, 1);
    }
#if WRONG == 3
    SetQueued(Extension, FALSE);
#endif
}

static NTSTATUS NTAPI Read(PDEVICE_OBJECT DeviceObject, PIRP Irp) {
    PEXTENSION Extension = DeviceObject->DeviceExtension;
#if WRONG == 4
    return Succeed(DeviceObject, Irp); /* and the queue stays empty */
#endif
    NTSTATUS Status = Wait(&Extension->Reads, Irp);
    BOOLEAN Before = SetQueued(Extension, TRUE);
#if WRONG == 1
    Before = FALSE;
#endif
    if (!Before) {
        InterlockedIncrement(&Extension->Users);
        IoQueueWorkItem(Extension->WorkItem, Work, DelayedWorkQueue, Extension);
    }
    return Status;
}

static NTSTATUS NTAPI Cleanup(PDEVICE_OBJECT DeviceObject, PIRP Irp) {
    CleanUp(&((PEXTENSION)DeviceObject->DeviceExtension)->Reads, FileOf(Irp));
    return Succeed(DeviceObject, Irp);
}

static VOID NTAPI Unload(PDRIVER_OBJECT DriverObject) {
    PEXTENSION Extension = DriverObject->DeviceObject->DeviceExtension;
    Leave(Extension);
    KeWaitForSingleObject(&Extension->Unused, Executive, KernelMode, FALSE, NULL);
#if WRONG != 2
    IoFreeWorkItem(Extension->WorkItem);
#endif
    IoDeleteDevice(DriverObject->DeviceObject);
}

DRIVER_INITIALIZE DriverEntry;
NTSTATUS NTAPI DriverEntry(PDRIVER_OBJECT DriverObject, PUNICODE_STRING RegistryPath) {
    PDEVICE_OBJECT DeviceObject;
    PEXTENSION Extension;
    NTSTATUS Status = MakeDevice(DriverObject, sizeof(EXTENSION), &DeviceObject);
    UNREFERENCED_PARAMETER(RegistryPath);
    if (!NT_SUCCESS(Status)) {
        return Status;
    }
    Extension = DeviceObject->DeviceExtension;
    Extension->WorkItem = IoAllocateWorkItem(DeviceObject);
    if (Extension->WorkItem == NULL) {
        IoDeleteDevice(DeviceObject);
        return STATUS_INSUFFICIENT_RESOURCES;
    }
    InitializeWaiting(&Extension->Reads, CompleteWaiting);
    Extension->Users = 1;
    KeInitializeEvent(&Extension->Unused, NotificationEvent, FALSE);
    DriverObject->DriverUnload = Unload;
    DriverObject->MajorFunction[IRP_MJ_READ] = Read;
    DriverObject->MajorFunction[IRP_MJ_WRITE] = Succeed;
    DriverObject->MajorFunction[IRP_MJ_CLEANUP] = Cleanup;
    return STATUS_SUCCESS;
}
