/* A request moves between two lists, each with a lock and a cancel routine of its own: a write
 * completes the oldest read of the second, and moves the oldest of the first there. */
#include "unusual.h"

typedef struct _EXTENSION {
    READS First, Second; /* the locks are taken in this order */
} EXTENSION, *PEXTENSION;

DRIVER_INITIALIZE DriverEntry;
static DRIVER_DISPATCH Read, Write, Cleanup;
static DRIVER_CANCEL CancelFirst, CancelSecond;

static VOID NTAPI CancelFirst(PDEVICE_OBJECT DeviceObject, PIRP Irp) {
    CancelIn(&((PEXTENSION)DeviceObject->DeviceExtension)->First, Irp);
}

static VOID NTAPI CancelSecond(PDEVICE_OBJECT DeviceObject, PIRP Irp) {
    CancelIn(&((PEXTENSION)DeviceObject->DeviceExtension)->Second, Irp);
}

static NTSTATUS NTAPI Read(PDEVICE_OBJECT DeviceObject, PIRP Irp) {
    PEXTENSION Extension = DeviceObject->DeviceExtension;
    IoMarkIrpPending(Irp);
    WaitIn(&Extension->First, Irp, CancelFirst);
    return STATUS_PENDING;
}

static NTSTATUS NTAPI Write(PDEVICE_OBJECT DeviceObject, PIRP Irp) {
    PEXTENSION Extension = DeviceObject->DeviceExtension;
    PIRP Ready = Take(&Extension->Second, NULL), Next = Take(&Extension->First, NULL);
    if (Next != NULL) {
        WaitIn(&Extension->Second, Next, CancelSecond);
    }
    return CompleteBoth(Ready, Irp);
}

/* Both locks are held as the file object is marked: so what is on its way between the lists doesn't
 * get into the second. */
static NTSTATUS NTAPI Cleanup(PDEVICE_OBJECT DeviceObject, PIRP Irp) {
    PEXTENSION Extension = DeviceObject->DeviceExtension;
    PIRP Left;
    MarkClosedUnderBoth(&Extension->First.Lock, &Extension->Second.Lock, FileOf(Irp));
    while ((Left = Take(&Extension->First, FileOf(Irp))) != NULL ||
           (Left = Take(&Extension->Second, FileOf(Irp))) != NULL) {
        Complete(Left, STATUS_CANCELLED);
    }
    return Complete(Irp, STATUS_SUCCESS);
}

NTSTATUS NTAPI DriverEntry(PDRIVER_OBJECT DriverObject, PUNICODE_STRING RegistryPath) {
    PEXTENSION Extension = BeginReads(DriverObject, sizeof(EXTENSION), Read, Write, Cleanup);
    UNREFERENCED_PARAMETER(RegistryPath);
    if (Extension == NULL) {
        return STATUS_INSUFFICIENT_RESOURCES;
    }
    InitializeReads(&Extension->Second);
    return STATUS_SUCCESS;
}
