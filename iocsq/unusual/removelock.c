/* A remove lock round each request: acquired as it comes, with the IRP as its tag, and released as
 * it is completed, wherever that is. The unload waits for the last. */
#include "removed.h"

#define POOL_TAG 'kcoL'

typedef struct _EXTENSION {
    WAITING Reads;
    IO_REMOVE_LOCK RemoveLock;
} EXTENSION, *PEXTENSION;

static DRIVER_UNLOAD Unload;
static DRIVER_DISPATCH Read, Write;

static VOID End(PVOID DeviceExtension, PIRP Irp, NTSTATUS Status) {
    PEXTENSION Extension = DeviceExtension;
    Complete(Irp, Status);
    IoReleaseRemoveLock(&Extension->RemoveLock, Irp); /* a tag: it isn't looked at */
}

static NTSTATUS NTAPI Read(PDEVICE_OBJECT DeviceObject, PIRP Irp) {
    PEXTENSION Extension = DeviceObject->DeviceExtension;
    NTSTATUS Status = IoAcquireRemoveLock(&Extension->RemoveLock, Irp);
    if (!NT_SUCCESS(Status)) {
        return Complete(Irp, Status);
    }
    Status = IoCsqInsertIrpEx(&Extension->Reads.Queue, Irp, NULL, NULL);
    if (!NT_SUCCESS(Status)) {
        End(Extension, Irp, Status);
        return Status;
    }
    return STATUS_PENDING;
}

static NTSTATUS NTAPI Write(PDEVICE_OBJECT DeviceObject, PIRP Irp) {
    PEXTENSION Extension = DeviceObject->DeviceExtension;
    NTSTATUS Status = IoAcquireRemoveLock(&Extension->RemoveLock, Irp);
    if (!NT_SUCCESS(Status)) {
        return Complete(Irp, Status);
    }
    EndOldest(Extension);
    End(Extension, Irp, STATUS_SUCCESS);
    return STATUS_SUCCESS;
}

static VOID NTAPI Unload(PDRIVER_OBJECT DriverObject) {
    PEXTENSION Extension = DriverObject->DeviceObject->DeviceExtension;
    if (NT_SUCCESS(IoAcquireRemoveLock(&Extension->RemoveLock, DriverObject))) {
        IoReleaseRemoveLockAndWait(&Extension->RemoveLock, DriverObject);
    }
    IoDeleteDevice(DriverObject->DeviceObject);
}

NTSTATUS NTAPI DriverEntry(PDRIVER_OBJECT DriverObject, PUNICODE_STRING RegistryPath) {
    PEXTENSION Extension = Begin(DriverObject, sizeof(EXTENSION), Read, Write, EndAtCleanup);
    UNREFERENCED_PARAMETER(RegistryPath);
    if (Extension == NULL) {
        return STATUS_INSUFFICIENT_RESOURCES;
    }
    DriverObject->DriverUnload = Unload;
    IoInitializeRemoveLock(&Extension->RemoveLock, POOL_TAG, 0, 0);
    InitializeWaiting(&Extension->Reads, EndCanceled);
    return STATUS_SUCCESS;
}
