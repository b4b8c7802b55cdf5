/* A remove lock: each IRP that waits has it until it was completed, so the device isn't deleted
 * before. */
#include "waiting.h"

typedef struct _EXTENSION {
    WAITING Reads;
    IO_REMOVE_LOCK RemoveLock;
} EXTENSION, *PEXTENSION;

static VOID FinishRead(PEXTENSION Extension, PIRP Irp, NTSTATUS Status) {
    Finish(Irp, Status, 0);
    IoReleaseRemoveLock(&Extension->RemoveLock, Irp);
}

static VOID NTAPI CompleteCanceled(PIO_CSQ Csq, PIRP Irp) {
    PEXTENSION Extension = CONTAINING_RECORD(Csq, EXTENSION, Reads.Queue);
#if WRONG == 1
    UNREFERENCED_PARAMETER(Extension);
    Finish(Irp, STATUS_CANCELLED, 0); /* and the lock is kept */
#else
    FinishRead(Extension, Irp, STATUS_CANCELLED);
#endif
}

static NTSTATUS NTAPI Read(PDEVICE_OBJECT DeviceObject, PIRP Irp) {
    PEXTENSION Extension = DeviceObject->DeviceExtension;
    NTSTATUS Status = IoAcquireRemoveLock(&Extension->RemoveLock, Irp);
    if (!NT_SUCCESS(Status)) {
        Finish(Irp, Status, 0);
        return Status;
    }
    Status = Wait(&Extension->Reads, Irp);
    if (!NT_SUCCESS(Status)) {
        IoReleaseRemoveLock(&Extension->RemoveLock, Irp);
    }
#if WRONG == 2
    else if (Irp->Cancel) { /* which may be completed, and released, by now */
        IoReleaseRemoveLock(&Extension->RemoveLock, Irp);
    }
#endif
    return Status;
}

static NTSTATUS NTAPI Write(PDEVICE_OBJECT DeviceObject, PIRP Irp) {
    PEXTENSION Extension = DeviceObject->DeviceExtension;
    PIRP Waiting = IoCsqRemoveNextIrp(&Extension->Reads.Queue, NULL);
    if (Waiting != NULL) {
        FinishRead(Extension, Waiting, STATUS_SUCCESS);
    }
    return Succeed(DeviceObject, Irp);
}

static NTSTATUS NTAPI Cleanup(PDEVICE_OBJECT DeviceObject, PIRP Irp) {
    PEXTENSION Extension = DeviceObject->DeviceExtension;
    PFILE_OBJECT File = FileOf(Irp);
    PIRP Waiting;
    CloseFile(&Extension->Reads, File);
    while ((Waiting = IoCsqRemoveNextIrp(&Extension->Reads.Queue, File)) != NULL) {
        FinishRead(Extension, Waiting, STATUS_CANCELLED);
    }
    return Succeed(DeviceObject, Irp);
}

static VOID NTAPI Unload(PDRIVER_OBJECT DriverObject) {
    PEXTENSION Extension = DriverObject->DeviceObject->DeviceExtension;
    if (NT_SUCCESS(IoAcquireRemoveLock(&Extension->RemoveLock, DriverObject))) {
        IoReleaseRemoveLockAndWait(&Extension->RemoveLock, DriverObject);
    }
    IoDeleteDevice(DriverObject->DeviceObject);
}

DRIVER_INITIALIZE DriverEntry;
NTSTATUS NTAPI DriverEntry(PDRIVER_OBJECT DriverObject, PUNICODE_STRING RegistryPath) {
    PDEVICE_OBJECT DeviceObject;
    PEXTENSION Extension;
    NTSTATUS Status = MakeDevice(DriverObject, sizeof(EXTENSION), &DeviceObject);
    UNREFERENCED_PARAMETER(RegistryPath);
    if (!NT_SUCCESS(Status)) {
        return Status;
    }
    Extension = DeviceObject->DeviceExtension;
    InitializeWaiting(&Extension->Reads, CompleteCanceled);
    IoInitializeRemoveLock(&Extension->RemoveLock, 'qSCI', 0, 0);
    DriverObject->DriverUnload = Unload;
    DriverObject->MajorFunction[IRP_MJ_READ] = Read;
    DriverObject->MajorFunction[IRP_MJ_WRITE] = Write;
    DriverObject->MajorFunction[IRP_MJ_CLEANUP] = Cleanup;
    return STATUS_SUCCESS;
}
