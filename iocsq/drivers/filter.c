/* Completion routines: a filter device passes all on to the device that it is attached to, and
 * counts the reads that are under way below. That device has the queue. */
#include "waiting.h"

typedef struct _EXTENSION {
    PDEVICE_OBJECT Lower; /* of the filter; of the lower device NULL */
    LONG Below;           /* reads, of the filter */
    WAITING Reads;        /* of the lower device */
} EXTENSION, *PEXTENSION;

static IO_COMPLETION_ROUTINE ReadCompleted;
static NTSTATUS NTAPI ReadCompleted(PDEVICE_OBJECT DeviceObject, PIRP Irp, PVOID Context) {
    PEXTENSION Extension = Context;
    UNREFERENCED_PARAMETER(DeviceObject);
#if WRONG != 1
    if (Irp->PendingReturned) {
        IoMarkIrpPending(Irp);
    }
#else
    UNREFERENCED_PARAMETER(Irp);
#endif
    InterlockedDecrement(&Extension->Below);
    return STATUS_SUCCESS;
}

static NTSTATUS PassOn(PEXTENSION Extension, PIRP Irp) {
    IoSkipCurrentIrpStackLocation(Irp);
    return IoCallDriver(Extension->Lower, Irp);
}

static NTSTATUS NTAPI Read(PDEVICE_OBJECT DeviceObject, PIRP Irp) {
    PEXTENSION Extension = DeviceObject->DeviceExtension;
    if (Extension->Lower == NULL) {
        return Wait(&Extension->Reads, Irp);
    }
    InterlockedIncrement(&Extension->Below);
    IoCopyCurrentIrpStackLocationToNext(Irp);
    IoSetCompletionRoutine(Irp, ReadCompleted, Extension, TRUE, TRUE, TRUE);
#if WRONG == 2
    IoCallDriver(Extension->Lower, Irp);
    return STATUS_SUCCESS;
#else
    return IoCallDriver(Extension->Lower, Irp);
#endif
}

static NTSTATUS NTAPI Write(PDEVICE_OBJECT DeviceObject, PIRP Irp) {
    PEXTENSION Extension = DeviceObject->DeviceExtension;
    PIRP Waiting;
    if (Extension->Lower != NULL || WRONG == 3) { /* 3: the lower device has none */
        return PassOn(Extension, Irp);
    }
    Waiting = IoCsqRemoveNextIrp(&Extension->Reads.Queue, FileOf(Irp));
    if (Waiting != NULL) {
        Finish(Waiting, STATUS_SUCCESS, 1);
    }
    return Succeed(DeviceObject, Irp);
}

static NTSTATUS NTAPI Open(PDEVICE_OBJECT DeviceObject, PIRP Irp) {
    PEXTENSION Extension = DeviceObject->DeviceExtension;
    return Extension->Lower != NULL ? PassOn(Extension, Irp) : Succeed(DeviceObject, Irp);
}

static NTSTATUS NTAPI Cleanup(PDEVICE_OBJECT DeviceObject, PIRP Irp) {
    PEXTENSION Extension = DeviceObject->DeviceExtension;
    if (Extension->Lower != NULL) {
        return PassOn(Extension, Irp);
    }
    CleanUp(&Extension->Reads, FileOf(Irp));
    return Succeed(DeviceObject, Irp);
}

static VOID NTAPI Unload(PDRIVER_OBJECT DriverObject) {
    PDEVICE_OBJECT Filter = DriverObject->DeviceObject;
    PDEVICE_OBJECT Lower = ((PEXTENSION)Filter->DeviceExtension)->Lower;
    IoDetachDevice(Lower);
    IoDeleteDevice(Filter);
    IoDeleteDevice(Lower);
}

DRIVER_INITIALIZE DriverEntry;
NTSTATUS NTAPI DriverEntry(PDRIVER_OBJECT DriverObject, PUNICODE_STRING RegistryPath) {
    PDEVICE_OBJECT Lower, Filter;
    NTSTATUS Status = MakeDevice(DriverObject, sizeof(EXTENSION), &Lower);
    UNREFERENCED_PARAMETER(RegistryPath);
    if (!NT_SUCCESS(Status)) {
        return Status;
    }
    Status = MakeDevice(DriverObject, sizeof(EXTENSION), &Filter);
    if (!NT_SUCCESS(Status)) {
        IoDeleteDevice(Lower);
        return Status;
    }
    InitializeWaiting(&((PEXTENSION)Lower->DeviceExtension)->Reads, CompleteWaiting);
    ((PEXTENSION)Filter->DeviceExtension)->Lower = IoAttachDeviceToDeviceStack(Filter, Lower);
    DriverObject->DriverUnload = Unload;
    DriverObject->MajorFunction[IRP_MJ_CREATE] = Open;
    DriverObject->MajorFunction[IRP_MJ_CLOSE] = Open;
    DriverObject->MajorFunction[IRP_MJ_READ] = Read;
    DriverObject->MajorFunction[IRP_MJ_WRITE] = Write;
    DriverObject->MajorFunction[IRP_MJ_CLEANUP] = Cleanup;
    return STATUS_SUCCESS;
}
