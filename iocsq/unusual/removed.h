/* What the drivers share whose reads are in a queue of waiting.h, and end in a way of the driver's
 * own once they are removed, cancelled or refused. The device's extension begins with the queue. */
#ifndef REMOVED_H
#define REMOVED_H
#include "unusual.h"

DRIVER_INITIALIZE DriverEntry;

/* Of the driver: completes the request with this status, now or later. */
static VOID End(PVOID DeviceExtension, PIRP Irp, NTSTATUS Status);

static VOID NTAPI EndCanceled(PIO_CSQ Csq, PIRP Irp) {
    End(CONTAINING_RECORD(Csq, WAITING, Queue), Irp, STATUS_CANCELLED);
}

/* The oldest read, if there is one. */
static VOID EndOldest(PVOID DeviceExtension) {
    PIRP Waiting = IoCsqRemoveNextIrp(DeviceExtension, NULL);
    if (Waiting != NULL) {
        End(DeviceExtension, Waiting, STATUS_SUCCESS);
    }
}

static NTSTATUS NTAPI EndAtCleanup(PDEVICE_OBJECT DeviceObject, PIRP Irp) {
    PWAITING Reads = DeviceObject->DeviceExtension;
    PIRP Left;
    CloseFile(Reads, FileOf(Irp));
    while ((Left = IoCsqRemoveNextIrp(&Reads->Queue, FileOf(Irp))) != NULL) {
        End(Reads, Left, STATUS_CANCELLED);
    }
    return Complete(Irp, STATUS_SUCCESS);
}

#endif
