/* A read waits at a gate: a list with a lock and a cancel routine of its own. A write lets the
 * oldest through into an IO_CSQ; one of an odd length sends the oldest there back to the gate, and
 * one of an even length completes it. */
#include "unusual.h"

typedef struct _EXTENSION {
    READS Gate; /* its lock is taken before the queue's */
    WAITING Through;
} EXTENSION, *PEXTENSION;

DRIVER_INITIALIZE DriverEntry;
static DRIVER_DISPATCH Read, Write, Cleanup;

static NTSTATUS NTAPI Read(PDEVICE_OBJECT DeviceObject, PIRP Irp) {
    IoMarkIrpPending(Irp);
    WaitIn(DeviceObject->DeviceExtension, Irp, CancelInReads);
    return STATUS_PENDING;
}

static NTSTATUS NTAPI Write(PDEVICE_OBJECT DeviceObject, PIRP Irp) {
    PEXTENSION Extension = DeviceObject->DeviceExtension;
    PIRP Ready = IoCsqRemoveNextIrp(&Extension->Through.Queue, NULL);
    PIRP Next = Take(&Extension->Gate, NULL);
    if (Next != NULL) {
        NTSTATUS Status = IoCsqInsertIrpEx(&Extension->Through.Queue, Next, NULL, NULL);
        if (!NT_SUCCESS(Status)) {
            Complete(Next, STATUS_CANCELLED);
        }
    }
    if (Ready != NULL && IoGetCurrentIrpStackLocation(Irp)->Parameters.Write.Length % 2 != 0) {
        WaitIn(&Extension->Gate, Ready, CancelInReads);
        Ready = NULL;
    }
    return CompleteBoth(Ready, Irp);
}

static NTSTATUS NTAPI Cleanup(PDEVICE_OBJECT DeviceObject, PIRP Irp) {
    PEXTENSION Extension = DeviceObject->DeviceExtension;
    PIRP Left;
    MarkClosedUnderBoth(&Extension->Gate.Lock, &Extension->Through.Lock, FileOf(Irp));
    while ((Left = Take(&Extension->Gate, FileOf(Irp))) != NULL ||
           (Left = IoCsqRemoveNextIrp(&Extension->Through.Queue, FileOf(Irp))) != NULL) {
        Complete(Left, STATUS_CANCELLED);
    }
    return Complete(Irp, STATUS_SUCCESS);
}

NTSTATUS NTAPI DriverEntry(PDRIVER_OBJECT DriverObject, PUNICODE_STRING RegistryPath) {
    PEXTENSION Extension = BeginReads(DriverObject, sizeof(EXTENSION), Read, Write, Cleanup);
    UNREFERENCED_PARAMETER(RegistryPath);
    if (Extension == NULL) {
        return STATUS_INSUFFICIENT_RESOURCES;
    }
    InitializeWaiting(&Extension->Through, CompleteWaiting);
    return STATUS_SUCCESS;
}
