/* IRPs of the driver's own: a write sends one to a lower device for the oldest read, whose
 * completion routine completes that read. The lower device keeps it in a queue until the next
 * write. */
#include "waiting.h"

typedef struct _EXTENSION {
    WAITING Irps; /* of the upper device the reads that wait, of the lower one the driver's own
                   * IRPs */
    PDEVICE_OBJECT Lower;
} EXTENSION, *PEXTENSION;

static IO_COMPLETION_ROUTINE CompleteRead;
static NTSTATUS NTAPI CompleteRead(PDEVICE_OBJECT DeviceObject, PIRP Irp, PVOID Context) {
    PIRP Read = Context;
    NTSTATUS Status = Irp->IoStatus.Status;
    UNREFERENCED_PARAMETER(DeviceObject);
#if WRONG != 1
    IoFreeIrp(Irp);
#endif
    Finish(Read, Status, 1);
#if WRONG == 2
    return STATUS_SUCCESS;
#else
    return STATUS_MORE_PROCESSING_REQUIRED; /* the IRP is ours, and is no more */
#endif
}

/* Asks the lower device for what this read waits for. */
static VOID Ask(PEXTENSION Extension, PIRP Read) {
    PIRP Irp = IoAllocateIrp(Extension->Lower->StackSize, FALSE);
    PIO_STACK_LOCATION Next;
    if (Irp == NULL) {
        Finish(Read, STATUS_INSUFFICIENT_RESOURCES, 0);
        return;
    }
    Next = IoGetNextIrpStackLocation(Irp);
    Next->MajorFunction = IRP_MJ_INTERNAL_DEVICE_CONTROL;
    IoSetCompletionRoutine(Irp, CompleteRead, Read, TRUE, TRUE, TRUE);
    IoCallDriver(Extension->Lower, Irp);
}

static VOID Answer(PEXTENSION LowerExtension) {
    PIRP Irp;
    while ((Irp = IoCsqRemoveNextIrp(&LowerExtension->Irps.Queue, NULL)) != NULL) {
        Finish(Irp, STATUS_SUCCESS, 0);
    }
}

static NTSTATUS NTAPI Read(PDEVICE_OBJECT DeviceObject, PIRP Irp) {
    return Wait(&((PEXTENSION)DeviceObject->DeviceExtension)->Irps, Irp);
}

static NTSTATUS NTAPI Write(PDEVICE_OBJECT DeviceObject, PIRP Irp) {
    PEXTENSION Extension = DeviceObject->DeviceExtension;
    PIRP Waiting = IoCsqRemoveNextIrp(&Extension->Irps.Queue, NULL);
    if (Waiting != NULL) {
        Ask(Extension, Waiting);
    }
    Answer(Extension->Lower->DeviceExtension);
    return Succeed(DeviceObject, Irp);
}

static NTSTATUS NTAPI InternalControl(PDEVICE_OBJECT DeviceObject, PIRP Irp) {
    return Wait(&((PEXTENSION)DeviceObject->DeviceExtension)->Irps, Irp);
}

/* What the lower device has may be of this file object: it is answered first. */
static NTSTATUS NTAPI Cleanup(PDEVICE_OBJECT DeviceObject, PIRP Irp) {
    PEXTENSION Extension = DeviceObject->DeviceExtension;
    CleanUp(&Extension->Irps, FileOf(Irp));
    Answer(Extension->Lower->DeviceExtension);
    return Succeed(DeviceObject, Irp);
}

static VOID NTAPI Unload(PDRIVER_OBJECT DriverObject) {
    PEXTENSION Extension = DriverObject->DeviceObject->DeviceExtension;
    PDEVICE_OBJECT Lower = Extension->Lower;
    IoDeleteDevice(DriverObject->DeviceObject);
    IoDeleteDevice(Lower);
}

DRIVER_INITIALIZE DriverEntry;
NTSTATUS NTAPI DriverEntry(PDRIVER_OBJECT DriverObject, PUNICODE_STRING RegistryPath) {
    PDEVICE_OBJECT Lower, Upper;
    PEXTENSION Extension;
    NTSTATUS Status = MakeDevice(DriverObject, sizeof(EXTENSION), &Lower);
    UNREFERENCED_PARAMETER(RegistryPath);
    if (!NT_SUCCESS(Status)) {
        return Status;
    }
    Status = MakeDevice(DriverObject, sizeof(EXTENSION), &Upper);
    if (!NT_SUCCESS(Status)) {
        IoDeleteDevice(Lower);
        return Status;
    }
    InitializeWaiting(&((PEXTENSION)Lower->DeviceExtension)->Irps, CompleteWaiting);
    Extension = Upper->DeviceExtension;
    InitializeWaiting(&Extension->Irps, CompleteWaiting);
    Extension->Lower = Lower;
    DriverObject->DriverUnload = Unload;
    DriverObject->MajorFunction[IRP_MJ_READ] = Read;
    DriverObject->MajorFunction[IRP_MJ_WRITE] = Write;
    DriverObject->MajorFunction[IRP_MJ_INTERNAL_DEVICE_CONTROL] = InternalControl;
    DriverObject->MajorFunction[IRP_MJ_CLEANUP] = Cleanup;
    return STATUS_SUCCESS;
}
