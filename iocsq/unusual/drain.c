/* The peek has an effect: as it finds no IRP at all, it sets an event, for which the unload waits.
 * An insert clears it. */
#include "unusual.h"

typedef struct _EXTENSION {
    WAITING Reads;
    KEVENT Empty; /* set under the queue's lock, by a peek for any IRP that finds none */
} EXTENSION, *PEXTENSION;

DRIVER_INITIALIZE DriverEntry;
static DRIVER_UNLOAD Unload;
static DRIVER_DISPATCH Write;

static PEXTENSION Of(PIO_CSQ Csq) {
    return CONTAINING_RECORD(Csq, EXTENSION, Reads.Queue);
}

static NTSTATUS NTAPI Insert(PIO_CSQ Csq, PIRP Irp, PVOID InsertContext) {
    NTSTATUS Status = InsertWaiting(Csq, Irp, InsertContext);
    if (NT_SUCCESS(Status)) {
        KeClearEvent(&Of(Csq)->Empty);
    }
    return Status;
}

static PIRP NTAPI Peek(PIO_CSQ Csq, PIRP Irp, PVOID PeekContext) {
    PIRP Next = PeekWaiting(Csq, Irp, PeekContext);
    if (Next == NULL && PeekContext == NULL) {
        KeSetEvent(&Of(Csq)->Empty, IO_NO_INCREMENT, FALSE);
    }
    return Next;
}

/* Completes all reads that wait. */
static NTSTATUS NTAPI Write(PDEVICE_OBJECT DeviceObject, PIRP Irp) {
    PEXTENSION Extension = DeviceObject->DeviceExtension;
    PIRP Waiting;
    while ((Waiting = IoCsqRemoveNextIrp(&Extension->Reads.Queue, NULL)) != NULL) {
        Complete(Waiting, STATUS_SUCCESS);
    }
    return Complete(Irp, STATUS_SUCCESS);
}

static VOID NTAPI Unload(PDRIVER_OBJECT DriverObject) {
    PEXTENSION Extension = DriverObject->DeviceObject->DeviceExtension;
    PIRP None = IoCsqRemoveNextIrp(&Extension->Reads.Queue, NULL);
    ASSERT(None == NULL);
    UNREFERENCED_PARAMETER(None);
    KeWaitForSingleObject(&Extension->Empty, Executive, KernelMode, FALSE, NULL);
    IoDeleteDevice(DriverObject->DeviceObject);
}

NTSTATUS NTAPI DriverEntry(PDRIVER_OBJECT DriverObject, PUNICODE_STRING RegistryPath) {
    PEXTENSION Extension = Begin(DriverObject, sizeof(EXTENSION), QueueRead, Write,
                                 CleanupWaiting);
    UNREFERENCED_PARAMETER(RegistryPath);
    if (Extension == NULL) {
        return STATUS_INSUFFICIENT_RESOURCES;
    }
    DriverObject->DriverUnload = Unload;
    KeInitializeEvent(&Extension->Empty, NotificationEvent, TRUE);
    InitializeOwn(&Extension->Reads, Insert, Peek, CompleteWaiting);
    return STATUS_SUCCESS;
}
