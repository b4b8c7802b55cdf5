/* IRPs that one thread removes and another puts back: a write takes the oldest IRP out and hands it
 * to a work item, which serves each other one and lets the rest wait again, as the last. A device
 * control waits with an insert context, and goes back with it; there is one at a time. */
#include "waiting.h"

typedef struct _EXTENSION {
    WAITING Irps;
    LIST_ENTRY Handed; /* to the work item; under HandedLock */
    KSPIN_LOCK HandedLock;
    PIO_WORKITEM Item;
    LONG Queued;  /* whether the work item is, or has yet to look at Handed; with the next three by
                   * interlocked calls */
    LONG Users;   /* 1 for the device, and 1 for each time that the work item was queued and hasn't
                   * ended */
    LONG Control; /* whether a device control is under way */
    LONG Turn;
    KEVENT Unused; /* signaled once there are no users */
    IO_CSQ_IRP_CONTEXT Context; /* the device control's */
} EXTENSION, *PEXTENSION;

static PEXTENSION ExtensionOf(PIRP Irp) {
    return IoGetCurrentIrpStackLocation(Irp)->DeviceObject->DeviceExtension;
}

static BOOLEAN IsControl(PIRP Irp) {
    return IoGetCurrentIrpStackLocation(Irp)->MajorFunction == IRP_MJ_DEVICE_CONTROL;
}

/* The context is free once its IRP is out of the queue for good. */
static VOID Complete(PIRP Irp, NTSTATUS Status) {
    if (IsControl(Irp)) {
        InterlockedExchange(&ExtensionOf(Irp)->Control, FALSE);
    }
    Finish(Irp, Status, 0);
}

static VOID NTAPI CompleteCanceled(PIO_CSQ Csq, PIRP Irp) {
    UNREFERENCED_PARAMETER(Csq);
    Complete(Irp, STATUS_CANCELLED);
}

/* For the first time, or again. */
static NTSTATUS Insert(PEXTENSION Extension, PIRP Irp) {
    NTSTATUS Status = IoCsqInsertIrpEx(&Extension->Irps.Queue, Irp,
                                       IsControl(Irp) ? &Extension->Context : NULL, NULL);
    if (!NT_SUCCESS(Status)) {
        Complete(Irp, Status);
    }
    return Status;
}

/* ---- The work item ---- */
static VOID Leave(PEXTENSION Extension) {
    if (InterlockedDecrement(&Extension->Users) == 0) {
        KeSetEvent(&Extension->Unused, IO_NO_INCREMENT, FALSE);
    }
}

static VOID ServeOrPutBack(PEXTENSION Extension, PIRP Irp) {
    if (InterlockedExchangeAdd(&Extension->Turn, 1) % 2 == 0) {
        Complete(Irp, STATUS_SUCCESS);
        return;
    }
    Insert(Extension, Irp);
#if WRONG == 1
    if (Irp->Cancel) {
        Insert(Extension, Irp); /* in case that the cancel was missed */
    }
#endif
}

static PIRP TakeHanded(PEXTENSION Extension) {
    PIRP Irp = NULL;
    KIRQL Irql;
    KeAcquireSpinLock(&Extension->HandedLock, &Irql);
    if (!IsListEmpty(&Extension->Handed)) {
        Irp = CONTAINING_RECORD(RemoveHeadList(&Extension->Handed), IRP, Tail.Overlay.ListEntry);
    }
    KeReleaseSpinLock(&Extension->HandedLock, Irql);
    return Irp;
}

static IO_WORKITEM_ROUTINE Work;
static VOID NTAPI Work(PDEVICE_OBJECT DeviceObject, PVOID Context) {
    PEXTENSION Extension = Context;
    PIRP Irp;
    UNREFERENCED_PARAMETER(DeviceObject);
    InterlockedExchange(&Extension->Queued, FALSE);
    while ((Irp = TakeHanded(Extension)) != NULL) {
        ServeOrPutBack(Extension, Irp);
    }
#if WRONG == 2
    {
        PIRP Control = Extension->Context.Irp;
        Irp = IoCsqRemoveIrp(&Extension->Irps.Queue, &Extension->Context);
        if (Irp == NULL && Control != NULL) {
            Insert(Extension, Control); /* not removed: so it is to wait again */
        }
    }
#else
    Irp = IoCsqRemoveIrp(&Extension->Irps.Queue, &Extension->Context);
#endif
    if (Irp != NULL) {
        ServeOrPutBack(Extension, Irp);
    }
    Leave(Extension);
}

static VOID HandOver(PEXTENSION Extension, PIRP Irp) {
    KIRQL Irql;
    KeAcquireSpinLock(&Extension->HandedLock, &Irql);
    InsertTailList(&Extension->Handed, &Irp->Tail.Overlay.ListEntry);
    KeReleaseSpinLock(&Extension->HandedLock, Irql);
    if (InterlockedExchange(&Extension->Queued, TRUE) == FALSE) {
        InterlockedIncrement(&Extension->Users);
        IoQueueWorkItem(Extension->Item, Work, DelayedWorkQueue, Extension);
    }
}

/* ---- The dispatch routines ---- */
static NTSTATUS NTAPI Read(PDEVICE_OBJECT DeviceObject, PIRP Irp) {
    return Insert(DeviceObject->DeviceExtension, Irp);
}

static NTSTATUS NTAPI Control(PDEVICE_OBJECT DeviceObject, PIRP Irp) {
    PEXTENSION Extension = DeviceObject->DeviceExtension;
    if (InterlockedExchange(&Extension->Control, TRUE) != FALSE) {
        Finish(Irp, STATUS_DEVICE_NOT_READY, 0);
        return STATUS_DEVICE_NOT_READY;
    }
    return Insert(Extension, Irp);
}

static NTSTATUS NTAPI Write(PDEVICE_OBJECT DeviceObject, PIRP Irp) {
    PEXTENSION Extension = DeviceObject->DeviceExtension;
    PIRP Oldest = IoCsqRemoveNextIrp(&Extension->Irps.Queue, NULL);
    if (Oldest != NULL) {
        HandOver(Extension, Oldest);
#if WRONG == 3
        Insert(Extension, Oldest); /* until the work item comes to it */
#endif
    }
    return Succeed(DeviceObject, Irp);
}

static NTSTATUS NTAPI Cleanup(PDEVICE_OBJECT DeviceObject, PIRP Irp) {
    PEXTENSION Extension = DeviceObject->DeviceExtension;
    PIRP Left;
    CloseFile(&Extension->Irps, FileOf(Irp));
    while ((Left = IoCsqRemoveNextIrp(&Extension->Irps.Queue, FileOf(Irp))) != NULL) {
        Complete(Left, STATUS_CANCELLED);
    }
    return Succeed(DeviceObject, Irp);
}

static VOID NTAPI Unload(PDRIVER_OBJECT DriverObject) {
    PEXTENSION Extension = DriverObject->DeviceObject->DeviceExtension;
    Leave(Extension);
    KeWaitForSingleObject(&Extension->Unused, Executive, KernelMode, FALSE, NULL);
    IoFreeWorkItem(Extension->Item);
    IoDeleteDevice(DriverObject->DeviceObject);
}

DRIVER_INITIALIZE DriverEntry;
NTSTATUS NTAPI DriverEntry(PDRIVER_OBJECT DriverObject, PUNICODE_STRING RegistryPath) {
    PDEVICE_OBJECT DeviceObject;
    PEXTENSION Extension;
    NTSTATUS Status = MakeDevice(DriverObject, sizeof(EXTENSION), &DeviceObject);
    UNREFERENCED_PARAMETER(RegistryPath);
    if (!NT_SUCCESS(Status)) {
        return Status;
    }
    Extension = DeviceObject->DeviceExtension;
    InitializeListHead(&Extension->Handed);
    KeInitializeSpinLock(&Extension->HandedLock);
    Extension->Item = IoAllocateWorkItem(DeviceObject);
    if (Extension->Item == NULL) {
        IoDeleteDevice(DeviceObject);
        return STATUS_INSUFFICIENT_RESOURCES;
    }
    Extension->Users = 1;
    KeInitializeEvent(&Extension->Unused, NotificationEvent, FALSE);
    InitializeWaiting(&Extension->Irps, CompleteCanceled);
    DriverObject->DriverUnload = Unload;
    DriverObject->MajorFunction[IRP_MJ_READ] = Read;
    DriverObject->MajorFunction[IRP_MJ_WRITE] = Write;
    DriverObject->MajorFunction[IRP_MJ_DEVICE_CONTROL] = Control;
    DriverObject->MajorFunction[IRP_MJ_CLEANUP] = Cleanup;
    return STATUS_SUCCESS;
}
