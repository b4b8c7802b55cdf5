/* Neither the cancel routine nor the dispatch routine that finds Irp->Cancel set completes a
 * request: a DPC looks through the list, and completes what is marked or cancelled. */
#include "marked.h"

/* A request that was cancelled before its routine was set has no mark. */
static BOOLEAN IsOver(PIRP Irp) {
    return IsMarked(Irp) || (Irp->Cancel && IoSetCancelRoutine(Irp, NULL) != NULL);
}

static NTSTATUS NTAPI Read(PDEVICE_OBJECT DeviceObject, PIRP Irp) {
    PEXTENSION Extension = DeviceObject->DeviceExtension;
    BOOLEAN Waits;
    KIRQL Irql;
    IoMarkIrpPending(Irp);
    Irp->Tail.Overlay.DriverContext[0] = NULL;
    KeAcquireSpinLock(&Extension->Reads.Lock, &Irql);
    Waits = !IsClosed(Irp);
    if (Waits) {
        InsertTailList(&Extension->Reads.Irps, &Irp->Tail.Overlay.ListEntry);
        IoSetCancelRoutine(Irp, CancelRead);
        if (Irp->Cancel) {
            KeInsertQueueDpc(&Extension->Sweeper, NULL, NULL);
        }
    }
    KeReleaseSpinLock(&Extension->Reads.Lock, Irql);
    if (!Waits) {
        Complete(Irp, STATUS_CANCELLED);
    }
    return STATUS_PENDING;
}
