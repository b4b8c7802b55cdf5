/* The look at Irp->Cancel comes before the routine is set, with the system's cancel spin lock held
 * from the one to the other: nobody cancels between. Within it the driver's own lock is taken, in
 * the cancel routine too. */
#include "unusual.h"

DRIVER_INITIALIZE DriverEntry;
static DRIVER_DISPATCH Read;

static NTSTATUS NTAPI Read(PDEVICE_OBJECT DeviceObject, PIRP Irp) {
    PREADS Reads = DeviceObject->DeviceExtension;
    KIRQL Irql;
    IoAcquireCancelSpinLock(&Irql);
    KeAcquireSpinLockAtDpcLevel(&Reads->Lock);
    if (Irp->Cancel || IsClosed(Irp)) {
        KeReleaseSpinLockFromDpcLevel(&Reads->Lock);
        IoReleaseCancelSpinLock(Irql);
        return Complete(Irp, STATUS_CANCELLED);
    }
    IoMarkIrpPending(Irp);
    InsertTailList(&Reads->Irps, &Irp->Tail.Overlay.ListEntry);
    IoSetCancelRoutine(Irp, CancelWithin);
    KeReleaseSpinLockFromDpcLevel(&Reads->Lock);
    IoReleaseCancelSpinLock(Irql);
    return STATUS_PENDING;
}

NTSTATUS NTAPI DriverEntry(PDRIVER_OBJECT DriverObject, PUNICODE_STRING RegistryPath) {
    PREADS Reads = BeginReads(DriverObject, sizeof(READS), Read, WriteToReads, CleanupReads);
    UNREFERENCED_PARAMETER(RegistryPath);
    return Reads != NULL ? STATUS_SUCCESS : STATUS_INSUFFICIENT_RESOURCES;
}
