/*
 * @NAME@: a driver whose reads wait in a cancel-safe queue, until a write of the same file object
 * completes the oldest of them. Put your own dispatch routines in the place of these, and keep the
 * queue's callbacks in their form.
 */
#include <ntddk.h>
#include <csq.h>

typedef struct _EXTENSION {
    IO_CSQ Queue;
    LIST_ENTRY Waiting; /* the reads that wait, the oldest first; under Lock */
    KSPIN_LOCK Lock;
} EXTENSION, *PEXTENSION;

DRIVER_INITIALIZE DriverEntry;
static DRIVER_UNLOAD Unload;
static DRIVER_DISPATCH DispatchOpen, DispatchRead, DispatchWrite, DispatchCleanup;

static PEXTENSION OfQueue(PIO_CSQ Csq) {
    return CONTAINING_RECORD(Csq, EXTENSION, Queue);
}

static VOID Finish(PIRP Irp, NTSTATUS Status, ULONG_PTR Information) {
    Irp->IoStatus.Status = Status;
    Irp->IoStatus.Information = Information;
    IoCompleteRequest(Irp, IO_NO_INCREMENT);
}

/* ---- The queue's callbacks: the lock is held in the first three ---- */
static NTSTATUS NTAPI InsertWaiting(PIO_CSQ Csq, PIRP Irp, PVOID InsertContext) {
    UNREFERENCED_PARAMETER(InsertContext);
    if (IoGetCurrentIrpStackLocation(Irp)->FileObject->FsContext != NULL) {
        return STATUS_FILE_CLOSED; /* its cleanup went through the queue already */
    }
    InsertTailList(&OfQueue(Csq)->Waiting, &Irp->Tail.Overlay.ListEntry);
    return STATUS_PENDING;
}

static VOID NTAPI RemoveWaiting(PIO_CSQ Csq, PIRP Irp) {
    UNREFERENCED_PARAMETER(Csq);
    RemoveEntryList(&Irp->Tail.Overlay.ListEntry);
}

/* The first read of a file object, or of any for NULL: from the first on, or after Irp. */
static PIRP NTAPI PeekWaiting(PIO_CSQ Csq, PIRP Irp, PVOID PeekContext) {
    PLIST_ENTRY Head = &OfQueue(Csq)->Waiting;
    PLIST_ENTRY Entry = Irp != NULL ? Irp->Tail.Overlay.ListEntry.Flink : Head->Flink;
    for (; Entry != Head; Entry = Entry->Flink) {
        PIRP Next = CONTAINING_RECORD(Entry, IRP, Tail.Overlay.ListEntry);
        if (PeekContext == NULL ||
            PeekContext == (PVOID)IoGetCurrentIrpStackLocation(Next)->FileObject) {
            return Next;
        }
    }
    return NULL;
}

static VOID NTAPI LockWaiting(PIO_CSQ Csq, PKIRQL Irql) {
    KeAcquireSpinLock(&OfQueue(Csq)->Lock, Irql);
}

static VOID NTAPI UnlockWaiting(PIO_CSQ Csq, KIRQL Irql) {
    KeReleaseSpinLock(&OfQueue(Csq)->Lock, Irql);
}

static VOID NTAPI CompleteCanceled(PIO_CSQ Csq, PIRP Irp) {
    UNREFERENCED_PARAMETER(Csq);
    Finish(Irp, STATUS_CANCELLED, 0);
}

/* ---- The dispatch routines ---- */
static NTSTATUS NTAPI DispatchOpen(PDEVICE_OBJECT DeviceObject, PIRP Irp) {
    UNREFERENCED_PARAMETER(DeviceObject);
    Finish(Irp, STATUS_SUCCESS, 0);
    return STATUS_SUCCESS;
}

/* After an insert that succeeds the IRP isn't ours any more: only STATUS_PENDING is left to say. */
static NTSTATUS NTAPI DispatchRead(PDEVICE_OBJECT DeviceObject, PIRP Irp) {
    PEXTENSION Extension = DeviceObject->DeviceExtension;
    NTSTATUS Status = IoCsqInsertIrpEx(&Extension->Queue, Irp, NULL, NULL);
    if (!NT_SUCCESS(Status)) {
        Finish(Irp, Status, 0);
        return Status;
    }
    return STATUS_PENDING;
}

static NTSTATUS NTAPI DispatchWrite(PDEVICE_OBJECT DeviceObject, PIRP Irp) {
    PEXTENSION Extension = DeviceObject->DeviceExtension;
    PIRP Read =
        IoCsqRemoveNextIrp(&Extension->Queue, IoGetCurrentIrpStackLocation(Irp)->FileObject);
    if (Read != NULL) {
        Finish(Read, STATUS_SUCCESS, 0);
    }
    Finish(Irp, STATUS_SUCCESS, 0);
    return STATUS_SUCCESS;
}

static NTSTATUS NTAPI DispatchCleanup(PDEVICE_OBJECT DeviceObject, PIRP Irp) {
    PEXTENSION Extension = DeviceObject->DeviceExtension;
    PFILE_OBJECT File = IoGetCurrentIrpStackLocation(Irp)->FileObject;
    PIRP Read;
    KIRQL Irql;
    KeAcquireSpinLock(&Extension->Lock, &Irql);
    File->FsContext = Extension; /* from now on InsertWaiting refuses */
    KeReleaseSpinLock(&Extension->Lock, Irql);
    while ((Read = IoCsqRemoveNextIrp(&Extension->Queue, File)) != NULL) {
        Finish(Read, STATUS_CANCELLED, 0);
    }
    Finish(Irp, STATUS_SUCCESS, 0);
    return STATUS_SUCCESS;
}

/* ---- Beginning and end ---- */
static VOID NTAPI Unload(PDRIVER_OBJECT DriverObject) {
    IoDeleteDevice(DriverObject->DeviceObject);
}

NTSTATUS NTAPI DriverEntry(PDRIVER_OBJECT DriverObject, PUNICODE_STRING RegistryPath) {
    PDEVICE_OBJECT DeviceObject;
    PEXTENSION Extension;
    NTSTATUS Status = IoCreateDevice(DriverObject, sizeof(EXTENSION), NULL, FILE_DEVICE_UNKNOWN, 0,
                                     FALSE, &DeviceObject);
    UNREFERENCED_PARAMETER(RegistryPath);
    if (!NT_SUCCESS(Status)) {
        return Status;
    }
    DeviceObject->Flags |= DO_BUFFERED_IO; /* else SystemBuffer is null */
    Extension = DeviceObject->DeviceExtension;
    InitializeListHead(&Extension->Waiting);
    KeInitializeSpinLock(&Extension->Lock);
    IoCsqInitializeEx(&Extension->Queue, InsertWaiting, RemoveWaiting, PeekWaiting, LockWaiting,
                      UnlockWaiting, CompleteCanceled);
    DriverObject->DriverUnload = Unload;
    DriverObject->MajorFunction[IRP_MJ_CREATE] = DispatchOpen;
    DriverObject->MajorFunction[IRP_MJ_CLOSE] = DispatchOpen;
    DriverObject->MajorFunction[IRP_MJ_READ] = DispatchRead;
    DriverObject->MajorFunction[IRP_MJ_WRITE] = DispatchWrite;
    DriverObject->MajorFunction[IRP_MJ_CLEANUP] = DispatchCleanup;
    DeviceObject->Flags &= ~(ULONG)DO_DEVICE_INITIALIZING;
    return STATUS_SUCCESS;
}
