/* StartIo as the I/O manager has it: IoStartPacket with a cancel routine, and a DPC that completes
 * the request at which the device works, and has the next one started. */
#include "packet.h"

static VOID StartNext(PDEVICE_OBJECT DeviceObject) {
    KIRQL Irql;
    KeRaiseIrql(DISPATCH_LEVEL, &Irql);
    IoStartNextPacket(DeviceObject, TRUE);
    KeLowerIrql(Irql);
}

/* The current request has a cancel routine until StartIo has taken it back. */
static VOID NTAPI CancelPacket(PDEVICE_OBJECT DeviceObject, PIRP Irp) {
    BOOLEAN Current = DeviceObject->CurrentIrp == Irp;
    if (Current) {
        DeviceObject->CurrentIrp = NULL;
    } else if (WRONG != 1) {
        KeRemoveEntryDeviceQueue(&DeviceObject->DeviceQueue,
                                 &Irp->Tail.Overlay.DeviceQueueEntry);
    }
    IoReleaseCancelSpinLock(Irp->CancelIrql);
    if (Current && WRONG != 3) {
        StartNext(DeviceObject);
    }
    Complete(Irp, STATUS_CANCELLED);
}

static VOID NTAPI StartIo(PDEVICE_OBJECT DeviceObject, PIRP Irp) {
    BOOLEAN Mine = TRUE;
#if WRONG != 2
    KIRQL Irql;
    IoAcquireCancelSpinLock(&Irql);
    Mine = DeviceObject->CurrentIrp == Irp && IoSetCancelRoutine(Irp, NULL) != NULL;
    IoReleaseCancelSpinLock(Irql);
#else
    UNREFERENCED_PARAMETER(Irp);
#endif
    if (Mine) { /* otherwise its cancel routine has it, and has the next one started */
        StartWork(DeviceObject->DeviceExtension);
    }
}

static NTSTATUS NTAPI ReadWrite(PDEVICE_OBJECT DeviceObject, PIRP Irp) {
    IoMarkIrpPending(Irp);
    IoStartPacket(DeviceObject, Irp, NULL, CancelPacket);
    return STATUS_PENDING;
}
