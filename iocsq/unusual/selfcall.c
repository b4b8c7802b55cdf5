/* A read that was cancelled before it came to wait is given to the driver's own cancel routine, as
 * IoCancelIrp would: with the cancel spin lock, and its IRQL in the IRP. Within that lock the
 * driver's own is taken. */
#include "unusual.h"

DRIVER_INITIALIZE DriverEntry;
static DRIVER_DISPATCH Read;

static NTSTATUS NTAPI Read(PDEVICE_OBJECT DeviceObject, PIRP Irp) {
    PREADS Reads = DeviceObject->DeviceExtension;
    KIRQL Irql;
    IoMarkIrpPending(Irp);
    IoAcquireCancelSpinLock(&Irql);
    KeAcquireSpinLockAtDpcLevel(&Reads->Lock);
    InsertTailList(&Reads->Irps, &Irp->Tail.Overlay.ListEntry);
    IoSetCancelRoutine(Irp, CancelWithin);
    if ((Irp->Cancel || IsClosed(Irp)) && IoSetCancelRoutine(Irp, NULL) != NULL) {
        KeReleaseSpinLockFromDpcLevel(&Reads->Lock);
        Irp->CancelIrql = Irql;
        CancelWithin(DeviceObject, Irp); /* which releases the cancel spin lock */
        return STATUS_PENDING;
    }
    KeReleaseSpinLockFromDpcLevel(&Reads->Lock);
    IoReleaseCancelSpinLock(Irql);
    return STATUS_PENDING;
}

NTSTATUS NTAPI DriverEntry(PDRIVER_OBJECT DriverObject, PUNICODE_STRING RegistryPath) {
    PREADS Reads = BeginReads(DriverObject, sizeof(READS), Read, WriteToReads, CleanupReads);
    UNREFERENCED_PARAMETER(RegistryPath);
    return Reads != NULL ? STATUS_SUCCESS : STATUS_INSUFFICIENT_RESOURCES;
}
