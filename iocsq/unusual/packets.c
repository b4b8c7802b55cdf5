/* StartIo of the old style: IoStartPacket with a cancel function, which finds its request in the
 * device queue, or current and not started yet. Work that was started isn't cancelled: a timer's
 * DPC ends it, and starts the next. So a cleanup has nothing to do: each request ends soon. */
#include "../hand/packet.h"

static VOID NTAPI CancelPacket(PDEVICE_OBJECT DeviceObject, PIRP Irp) {
    KIRQL Irql = Irp->CancelIrql;
    if (DeviceObject->CurrentIrp == Irp) { /* StartIo will find another one to be current */
        IoReleaseCancelSpinLock(DISPATCH_LEVEL);
        IoStartNextPacket(DeviceObject, TRUE);
        KeLowerIrql(Irql);
    } else {
        KeRemoveEntryDeviceQueue(&DeviceObject->DeviceQueue, &Irp->Tail.Overlay.DeviceQueueEntry);
        IoReleaseCancelSpinLock(Irql);
    }
    Complete(Irp, STATUS_CANCELLED);
}

/* Of an IRP that isn't the current one any more nothing is read: it may be completed. */
static VOID NTAPI StartIo(PDEVICE_OBJECT DeviceObject, PIRP Irp) {
    KIRQL Irql;
    IoAcquireCancelSpinLock(&Irql);
    if (DeviceObject->CurrentIrp != Irp || IoSetCancelRoutine(Irp, NULL) == NULL) {
        IoReleaseCancelSpinLock(Irql);
        return;
    }
    IoReleaseCancelSpinLock(Irql);
    StartWork(DeviceObject->DeviceExtension);
}

static NTSTATUS NTAPI ReadWrite(PDEVICE_OBJECT DeviceObject, PIRP Irp) {
    IoMarkIrpPending(Irp);
    IoStartPacket(DeviceObject, Irp, NULL, CancelPacket);
    return STATUS_PENDING;
}
