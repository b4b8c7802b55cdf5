/*
 * The inverted call: a program can't be called by a driver, so it calls the driver first. It sends
 * a device control (IOCTL_WAIT_FOR_EVENT) that the driver keeps, and the driver completes it when
 * there is something to report. Here another device control (IOCTL_RAISE_EVENT) is what happens; in
 * a real driver it would be an interrupt.
 *
 * What is difficult: an event may come while no call waits, and a call may come while no event is
 * there. The one that comes second has to find the first. So both sides put down what they bring,
 * and then look for a pair (Deliver).
 */
#include "irp_queue.h"

#define IOCTL_WAIT_FOR_EVENT CTL_CODE(FILE_DEVICE_UNKNOWN, 0x801, METHOD_BUFFERED, FILE_ANY_ACCESS)
#define IOCTL_RAISE_EVENT CTL_CODE(FILE_DEVICE_UNKNOWN, 0x802, METHOD_BUFFERED, FILE_ANY_ACCESS)
#define MOST_EVENTS 8

typedef struct _EXTENSION {
    IRP_QUEUE Calls; /* that wait; under QueueLock */
    KSPIN_LOCK QueueLock;
    KSPIN_LOCK EventLock; /* taken before QueueLock */
    UCHAR Events[MOST_EVENTS]; /* that no call has reported yet, the oldest first; with their count
                                * under EventLock */
    ULONG EventCount;
} EXTENSION, *PEXTENSION;

/* Not once the cleanup of its file object has begun: a call that came later would stay for ever. */
static NTSTATUS Admit(PIRP Irp) {
    return FileOf(Irp)->FsContext == NULL ? STATUS_PENDING : STATUS_FILE_CLOSED;
}

/* A peek context is a file object, or null for any. */
BOOLEAN IsWanted(PIRP Irp, PVOID PeekContext) {
    return PeekContext == NULL || PeekContext == FileOf(Irp);
}

/* A test asks this, where nothing else happens: whether a call may wait on. */
BOOLEAN MayWait(PIRP Irp);
BOOLEAN MayWait(PIRP Irp) {
    PEXTENSION Extension = IoGetCurrentIrpStackLocation(Irp)->DeviceObject->DeviceExtension;
    return Extension->EventCount == 0;
}

/* ---- Pairs of an event and a call ---- */
/* Takes the oldest event and call, if there are both. Under EventLock, so that no two threads each
 * take a half. */
static PIRP TakePair(PEXTENSION Extension, PUCHAR Event) {
    KIRQL Irql;
    PIRP Call = NULL;
    KeAcquireSpinLock(&Extension->EventLock, &Irql);
    if (Extension->EventCount > 0) {
        Call = IoCsqRemoveNextIrp(&Extension->Calls.Csq, NULL);
    }
    if (Call != NULL) {
        *Event = Extension->Events[0];
        Extension->EventCount--;
        RtlMoveMemory(&Extension->Events[0], &Extension->Events[1], Extension->EventCount);
    }
    KeReleaseSpinLock(&Extension->EventLock, Irql);
    return Call;
}

/* Completes calls for as long as there are events; no lock is held as it does. */
static VOID Deliver(PEXTENSION Extension) {
    UCHAR Event;
    PIRP Call;
    while ((Call = TakePair(Extension, &Event)) != NULL) {
        *(PUCHAR)Call->AssociatedIrp.SystemBuffer = Event;
        Finish(Call, STATUS_SUCCESS, sizeof Event);
    }
}

static NTSTATUS WaitForEvent(PEXTENSION Extension, PIRP Irp) {
    NTSTATUS Status;
    if (IoGetCurrentIrpStackLocation(Irp)->Parameters.DeviceIoControl.OutputBufferLength <
        sizeof(UCHAR)) {
        return Finish(Irp, STATUS_BUFFER_TOO_SMALL, 0);
    }
    Status = Enqueue(&Extension->Calls, Irp, NULL);
    if (NT_SUCCESS(Status)) {
        Deliver(Extension);
    }
    return Status;
}

static NTSTATUS RaiseEvent(PEXTENSION Extension, PIRP Irp) {
    NTSTATUS Status = STATUS_SUCCESS;
    KIRQL Irql;
    KeAcquireSpinLock(&Extension->EventLock, &Irql);
    if (IoGetCurrentIrpStackLocation(Irp)->Parameters.DeviceIoControl.InputBufferLength <
        sizeof(UCHAR)) {
        Status = STATUS_BUFFER_TOO_SMALL;
    } else if (Extension->EventCount == MOST_EVENTS) {
        Status = STATUS_INSUFFICIENT_RESOURCES; /* who raises it hears that nobody listens */
    } else {
        Extension->Events[Extension->EventCount++] = *(PUCHAR)Irp->AssociatedIrp.SystemBuffer;
    }
    KeReleaseSpinLock(&Extension->EventLock, Irql);
    Deliver(Extension);
    return Finish(Irp, Status, 0);
}

/* ---- The dispatch routines ---- */
static NTSTATUS NTAPI DispatchControl(PDEVICE_OBJECT DeviceObject, PIRP Irp) {
    PEXTENSION Extension = DeviceObject->DeviceExtension;
    switch (IoGetCurrentIrpStackLocation(Irp)->Parameters.DeviceIoControl.IoControlCode) {
    case IOCTL_WAIT_FOR_EVENT: return WaitForEvent(Extension, Irp);
    case IOCTL_RAISE_EVENT: return RaiseEvent(Extension, Irp);
    default: return Finish(Irp, STATUS_INVALID_DEVICE_REQUEST, 0);
    }
}

static NTSTATUS NTAPI DispatchOpen(PDEVICE_OBJECT DeviceObject, PIRP Irp) {
    UNREFERENCED_PARAMETER(DeviceObject);
    return Finish(Irp, STATUS_SUCCESS, 0);
}

/* The last handle to a file object is closed: what waits for it is cancelled. */
static NTSTATUS NTAPI DispatchCleanup(PDEVICE_OBJECT DeviceObject, PIRP Irp) {
    PEXTENSION Extension = DeviceObject->DeviceExtension;
    KIRQL Irql;
    KeAcquireSpinLock(&Extension->QueueLock, &Irql);
    FileOf(Irp)->FsContext = Extension; /* from now on no call is queued, and then the queue is
                                         * emptied */
    KeReleaseSpinLock(&Extension->QueueLock, Irql);
    CompleteAll(&Extension->Calls, FileOf(Irp), STATUS_CANCELLED);
    return Finish(Irp, STATUS_SUCCESS, 0);
}

static VOID NTAPI Unload(PDRIVER_OBJECT DriverObject) {
    IoDeleteDevice(DriverObject->DeviceObject);
}

DRIVER_INITIALIZE DriverEntry;
NTSTATUS NTAPI DriverEntry(PDRIVER_OBJECT DriverObject, PUNICODE_STRING RegistryPath) {
    PDEVICE_OBJECT Device;
    PEXTENSION Extension;
    NTSTATUS Status = IoCreateDevice(DriverObject, sizeof(EXTENSION), NULL, FILE_DEVICE_UNKNOWN, 0,
                                     FALSE, &Device);
    UNREFERENCED_PARAMETER(RegistryPath);
    if (!NT_SUCCESS(Status)) {
        return Status;
    }
    Extension = Device->DeviceExtension; /* which IoCreateDevice fills with zeros */
    KeInitializeSpinLock(&Extension->QueueLock);
    KeInitializeSpinLock(&Extension->EventLock);
    InitializeQueue(&Extension->Calls, &Extension->QueueLock);
    DriverObject->DriverUnload = Unload;
    DriverObject->MajorFunction[IRP_MJ_CREATE] = DispatchOpen;
    DriverObject->MajorFunction[IRP_MJ_CLOSE] = DispatchOpen;
    DriverObject->MajorFunction[IRP_MJ_DEVICE_CONTROL] = DispatchControl;
    DriverObject->MajorFunction[IRP_MJ_CLEANUP] = DispatchCleanup;
    Device->Flags &= ~(ULONG)DO_DEVICE_INITIALIZING;
    return STATUS_SUCCESS;
}
