/* A read for which a byte is stored is completed at once; otherwise it waits. The number of bytes
 * and the list are under one lock. */
#include "unusual.h"

typedef struct _EXTENSION {
    READS Reads;
    ULONG Stored; /* under the lock of Reads; at most 2 */
} EXTENSION, *PEXTENSION;

DRIVER_INITIALIZE DriverEntry;
static DRIVER_DISPATCH Read, Write;

static NTSTATUS NTAPI Read(PDEVICE_OBJECT DeviceObject, PIRP Irp) {
    PEXTENSION Extension = DeviceObject->DeviceExtension;
    NTSTATUS Status = STATUS_SUCCESS;
    KIRQL Irql;
    KeAcquireSpinLock(&Extension->Reads.Lock, &Irql);
    if (Extension->Stored > 0) {
        Extension->Stored--;
    } else if (ArmIn(&Extension->Reads.Irps, Irp, CancelInReads)) {
        Status = STATUS_PENDING;
        IoMarkIrpPending(Irp); /* not before: the lock is held, so nobody completes it yet */
    } else {
        Status = STATUS_CANCELLED;
    }
    KeReleaseSpinLock(&Extension->Reads.Lock, Irql);
    return Status == STATUS_PENDING ? Status : Complete(Irp, Status);
}

static NTSTATUS NTAPI Write(PDEVICE_OBJECT DeviceObject, PIRP Irp) {
    PEXTENSION Extension = DeviceObject->DeviceExtension;
    PIRP Waiting;
    KIRQL Irql;
    KeAcquireSpinLock(&Extension->Reads.Lock, &Irql);
    Waiting = TakeFrom(&Extension->Reads.Irps, NULL);
    if (Waiting == NULL && Extension->Stored < 2) {
        Extension->Stored++;
    }
    KeReleaseSpinLock(&Extension->Reads.Lock, Irql);
    return CompleteBoth(Waiting, Irp);
}

NTSTATUS NTAPI DriverEntry(PDRIVER_OBJECT DriverObject, PUNICODE_STRING RegistryPath) {
    PEXTENSION Extension = BeginReads(DriverObject, sizeof(EXTENSION), Read, Write, CleanupReads);
    UNREFERENCED_PARAMETER(RegistryPath);
    return Extension != NULL ? STATUS_SUCCESS : STATUS_INSUFFICIENT_RESOURCES;
}
