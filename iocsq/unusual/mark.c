/* The cancel routine only marks its request, in DriverContext[0], and leaves it in the list: a DPC
 * unlinks and completes all that are marked. */
#include "marked.h"

static BOOLEAN IsOver(PIRP Irp) {
    return IsMarked(Irp);
}

static NTSTATUS NTAPI Read(PDEVICE_OBJECT DeviceObject, PIRP Irp) {
    IoMarkIrpPending(Irp);
    Irp->Tail.Overlay.DriverContext[0] = NULL;
    WaitIn(DeviceObject->DeviceExtension, Irp, CancelRead);
    return STATUS_PENDING;
}
