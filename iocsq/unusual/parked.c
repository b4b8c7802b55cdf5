/* While the device is off, requests are parked in the queue; a device control switches it on, and
 * starts them. */
#include "codes.h"
#include "unusual.h"

typedef struct _EXTENSION {
    WAITING Parked;
    BOOLEAN IsOn; /* under the queue's lock */
} EXTENSION, *PEXTENSION;

DRIVER_INITIALIZE DriverEntry;
static DRIVER_DISPATCH Serve, Control;

static NTSTATUS NTAPI InsertWhileOff(PIO_CSQ Csq, PIRP Irp, PVOID InsertContext) {
    if (CONTAINING_RECORD(Csq, EXTENSION, Parked.Queue)->IsOn) {
        return STATUS_DEVICE_BUSY; /* of the insert alone: it is served at once */
    }
    return InsertWaiting(Csq, Irp, InsertContext);
}

static NTSTATUS NTAPI Serve(PDEVICE_OBJECT DeviceObject, PIRP Irp) {
    PEXTENSION Extension = DeviceObject->DeviceExtension;
    NTSTATUS Status = IoCsqInsertIrpEx(&Extension->Parked.Queue, Irp, NULL, NULL);
    if (Status == STATUS_DEVICE_BUSY) {
        return Complete(Irp, STATUS_SUCCESS);
    }
    return NT_SUCCESS(Status) ? STATUS_PENDING : Complete(Irp, Status);
}

static VOID Switch(PEXTENSION Extension, BOOLEAN On) {
    PIRP Irp;
    KIRQL Irql;
    KeAcquireSpinLock(&Extension->Parked.Lock, &Irql);
    Extension->IsOn = On;
    KeReleaseSpinLock(&Extension->Parked.Lock, Irql);
    while (On && (Irp = IoCsqRemoveNextIrp(&Extension->Parked.Queue, NULL)) != NULL) {
        Complete(Irp, STATUS_SUCCESS);
    }
}

static NTSTATUS NTAPI Control(PDEVICE_OBJECT DeviceObject, PIRP Irp) {
    ULONG Code = IoGetCurrentIrpStackLocation(Irp)->Parameters.DeviceIoControl.IoControlCode;
    if (Code != CODE_ON && Code != CODE_OFF) {
        return Complete(Irp, STATUS_INVALID_DEVICE_REQUEST);
    }
    Switch(DeviceObject->DeviceExtension, Code == CODE_ON);
    return Complete(Irp, STATUS_SUCCESS);
}

NTSTATUS NTAPI DriverEntry(PDRIVER_OBJECT DriverObject, PUNICODE_STRING RegistryPath) {
    PEXTENSION Extension = Begin(DriverObject, sizeof(EXTENSION), Serve, Serve, CleanupWaiting);
    UNREFERENCED_PARAMETER(RegistryPath);
    if (Extension == NULL) {
        return STATUS_INSUFFICIENT_RESOURCES;
    }
    DriverObject->MajorFunction[IRP_MJ_DEVICE_CONTROL] = Control;
    InitializeOwn(&Extension->Parked, InsertWhileOff, PeekWaiting, CompleteWaiting);
    return STATUS_SUCCESS;
}
