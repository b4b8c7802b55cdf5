/* A queue for each file object, in memory that its FsContext points to, from IRP_MJ_CREATE until
 * IRP_MJ_CLOSE. FsContext2 says under the queue's lock that the cleanup has begun. */
#include "unusual.h"

#define POOL_TAG 'eliF'

DRIVER_INITIALIZE DriverEntry;
static DRIVER_DISPATCH Create, Close, Read, Write, Cleanup;

static NTSTATUS NTAPI Insert(PIO_CSQ Csq, PIRP Irp, PVOID InsertContext) {
    UNREFERENCED_PARAMETER(InsertContext);
    if (FileOf(Irp)->FsContext2 != NULL) {
        return STATUS_FILE_CLOSED;
    }
    InsertTailList(&CONTAINING_RECORD(Csq, WAITING, Queue)->Irps, &Irp->Tail.Overlay.ListEntry);
    return STATUS_PENDING;
}

static NTSTATUS NTAPI Create(PDEVICE_OBJECT DeviceObject, PIRP Irp) {
    PWAITING Reads = ExAllocatePoolWithTag(NonPagedPool, sizeof(WAITING), POOL_TAG);
    UNREFERENCED_PARAMETER(DeviceObject);
    if (Reads == NULL) {
        return Complete(Irp, STATUS_INSUFFICIENT_RESOURCES);
    }
    InitializeOwn(Reads, Insert, PeekWaiting, CompleteWaiting);
    FileOf(Irp)->FsContext = Reads;
    return Complete(Irp, STATUS_SUCCESS);
}

/* Once the insert returns, the IRP may be gone, and its file object closed. */
static NTSTATUS NTAPI Read(PDEVICE_OBJECT DeviceObject, PIRP Irp) {
    PWAITING Reads = FileOf(Irp)->FsContext;
    NTSTATUS Status;
    UNREFERENCED_PARAMETER(DeviceObject);
    ObReferenceObject(FileOf(Irp));
    {
        PFILE_OBJECT File = FileOf(Irp);
        Status = IoCsqInsertIrpEx(&Reads->Queue, Irp, NULL, NULL);
        ObDereferenceObject(File);
    }
    return NT_SUCCESS(Status) ? STATUS_PENDING : Complete(Irp, Status);
}

static VOID End(PWAITING Reads, NTSTATUS Status, BOOLEAN All) {
    PIRP Waiting;
    while ((Waiting = IoCsqRemoveNextIrp(&Reads->Queue, NULL)) != NULL) {
        Complete(Waiting, Status);
        if (!All) {
            break;
        }
    }
}

static NTSTATUS NTAPI Write(PDEVICE_OBJECT DeviceObject, PIRP Irp) {
    UNREFERENCED_PARAMETER(DeviceObject);
    End(FileOf(Irp)->FsContext, STATUS_SUCCESS, FALSE);
    return Complete(Irp, STATUS_SUCCESS);
}

static NTSTATUS NTAPI Cleanup(PDEVICE_OBJECT DeviceObject, PIRP Irp) {
    PWAITING Reads = FileOf(Irp)->FsContext;
    KIRQL Irql;
    UNREFERENCED_PARAMETER(DeviceObject);
    KeAcquireSpinLock(&Reads->Lock, &Irql);
    FileOf(Irp)->FsContext2 = Reads;
    KeReleaseSpinLock(&Reads->Lock, Irql);
    End(Reads, STATUS_CANCELLED, TRUE);
    return Complete(Irp, STATUS_SUCCESS);
}

static NTSTATUS NTAPI Close(PDEVICE_OBJECT DeviceObject, PIRP Irp) {
    UNREFERENCED_PARAMETER(DeviceObject);
    ExFreePoolWithTag(FileOf(Irp)->FsContext, POOL_TAG);
    return Complete(Irp, STATUS_SUCCESS);
}

NTSTATUS NTAPI DriverEntry(PDRIVER_OBJECT DriverObject, PUNICODE_STRING RegistryPath) {
    UNREFERENCED_PARAMETER(RegistryPath);
    if (Begin(DriverObject, 1, Read, Write, Cleanup) == NULL) {
        return STATUS_INSUFFICIENT_RESOURCES;
    }
    DriverObject->MajorFunction[IRP_MJ_CREATE] = Create;
    DriverObject->MajorFunction[IRP_MJ_CLOSE] = Close;
    return STATUS_SUCCESS;
}
