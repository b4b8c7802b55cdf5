/* Two locks, in one order: inside the queue's lock the insert takes the device's, under which the
 * bytes are that were written. A read for which there is one isn't queued. */
#include "unusual.h"

typedef struct _EXTENSION {
    WAITING Reads;
    KSPIN_LOCK DeviceLock; /* taken last */
    ULONG Stored;          /* under DeviceLock */
} EXTENSION, *PEXTENSION;

DRIVER_INITIALIZE DriverEntry;
static DRIVER_DISPATCH Read, Write;

/* Whether there was one, which the caller has now. */
static BOOLEAN TakeStored(PEXTENSION Extension) {
    BOOLEAN Any;
    KIRQL Irql;
    KeAcquireSpinLock(&Extension->DeviceLock, &Irql);
    Any = Extension->Stored > 0;
    Extension->Stored -= Any;
    KeReleaseSpinLock(&Extension->DeviceLock, Irql);
    return Any;
}

static NTSTATUS NTAPI InsertUnlessStored(PIO_CSQ Csq, PIRP Irp, PVOID InsertContext) {
    if (TakeStored(CONTAINING_RECORD(Csq, EXTENSION, Reads.Queue))) {
        return STATUS_DEVICE_BUSY; /* of the insert alone: the read is completed */
    }
    return InsertWaiting(Csq, Irp, InsertContext);
}

static NTSTATUS NTAPI Read(PDEVICE_OBJECT DeviceObject, PIRP Irp) {
    PEXTENSION Extension = DeviceObject->DeviceExtension;
    NTSTATUS Status = IoCsqInsertIrpEx(&Extension->Reads.Queue, Irp, NULL, NULL);
    if (Status == STATUS_DEVICE_BUSY) {
        return Complete(Irp, STATUS_SUCCESS);
    }
    return NT_SUCCESS(Status) ? STATUS_PENDING : Complete(Irp, Status);
}

/* Stores a byte, or gives it to a read that waits. Between a look that finds no read and the store
 * the queue's lock is held, so that no read comes to wait. */
static PIRP StoreOrTake(PEXTENSION Extension) {
    PIRP Waiting = IoCsqRemoveNextIrp(&Extension->Reads.Queue, NULL);
    KIRQL Outer, Inner;
    if (Waiting != NULL) {
        return Waiting;
    }
    KeAcquireSpinLock(&Extension->Reads.Lock, &Outer);
    if (IsListEmpty(&Extension->Reads.Irps)) {
        KeAcquireSpinLock(&Extension->DeviceLock, &Inner);
        Extension->Stored = Extension->Stored < 2 ? Extension->Stored + 1 : 2;
        KeReleaseSpinLock(&Extension->DeviceLock, Inner);
    }
    KeReleaseSpinLock(&Extension->Reads.Lock, Outer);
    return NULL;
}

static NTSTATUS NTAPI Write(PDEVICE_OBJECT DeviceObject, PIRP Irp) {
    return CompleteBoth(StoreOrTake(DeviceObject->DeviceExtension), Irp);
}

NTSTATUS NTAPI DriverEntry(PDRIVER_OBJECT DriverObject, PUNICODE_STRING RegistryPath) {
    PEXTENSION Extension = Begin(DriverObject, sizeof(EXTENSION), Read, Write, CleanupWaiting);
    UNREFERENCED_PARAMETER(RegistryPath);
    if (Extension == NULL) {
        return STATUS_INSUFFICIENT_RESOURCES;
    }
    KeInitializeSpinLock(&Extension->DeviceLock);
    InitializeOwn(&Extension->Reads, InsertUnlessStored, PeekWaiting, CompleteWaiting);
    return STATUS_SUCCESS;
}
