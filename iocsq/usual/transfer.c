/* A device that transfers one read at a time: the others wait in the queue. The one in transfer is
 * in no queue, and has a cancel routine of the driver's own. A write is the device's interrupt: its
 * first byte fills the read. */
#include <ntddk.h>
#include <csq.h>

#ifndef WRONG
#define WRONG 0
#endif
#define TAG 'rfsT'

typedef struct _EXTENSION {
    IO_CSQ Csq;
    KSPIN_LOCK Lock;
    LIST_ENTRY Waiting; /* under Lock */
    KSPIN_LOCK TransferLock;
    PIRP Current; /* under TransferLock, which is taken before Lock */
} EXTENSION, *PEXTENSION;

/* Of each read, until it is completed. */
typedef struct _RECORD {
    ULONG Length;
    ULONG Ended;
} RECORD, *PRECORD;

DRIVER_INITIALIZE DriverEntry;
static DRIVER_DISPATCH Succeed, Read, Write, Cleanup;
static DRIVER_CANCEL CancelTransfer;
static DRIVER_UNLOAD Unload;

static PEXTENSION Of(PIO_CSQ Csq) {
    return CONTAINING_RECORD(Csq, EXTENSION, Csq);
}

static PFILE_OBJECT FileOf(PIRP Irp) {
    return IoGetCurrentIrpStackLocation(Irp)->FileObject;
}

static PRECORD RecordOf(PIRP Irp) {
    return Irp->Tail.Overlay.DriverContext[0];
}

static NTSTATUS Complete(PIRP Irp, NTSTATUS Status, ULONG_PTR Information) {
    Irp->IoStatus.Status = Status;
    Irp->IoStatus.Information = Information;
    IoCompleteRequest(Irp, IO_NO_INCREMENT);
    return Status;
}

static NTSTATUS CompleteRead(PIRP Irp, NTSTATUS Status, ULONG_PTR Information) {
    PRECORD Record = RecordOf(Irp);
    ExFreePoolWithTag(Record, TAG);
#if WRONG == 4
    Record->Ended++;
#endif
    return Complete(Irp, Status, Information);
}

/* ---- The queue's callbacks ---- */
static NTSTATUS NTAPI InsertWaiting(PIO_CSQ Csq, PIRP Irp, PVOID InsertContext) {
    UNREFERENCED_PARAMETER(InsertContext);
    if (FileOf(Irp)->FsContext != NULL) {
        return STATUS_FILE_CLOSED;
    }
    InsertTailList(&Of(Csq)->Waiting, &Irp->Tail.Overlay.ListEntry);
    return STATUS_SUCCESS;
}

static VOID NTAPI RemoveWaiting(PIO_CSQ Csq, PIRP Irp) {
    UNREFERENCED_PARAMETER(Csq);
    RemoveEntryList(&Irp->Tail.Overlay.ListEntry);
}

static PIRP NTAPI PeekWaiting(PIO_CSQ Csq, PIRP Irp, PVOID PeekContext) {
    PLIST_ENTRY Entry = Irp ? Irp->Tail.Overlay.ListEntry.Flink : Of(Csq)->Waiting.Flink;
    for (; Entry != &Of(Csq)->Waiting; Entry = Entry->Flink) {
        PIRP Next = CONTAINING_RECORD(Entry, IRP, Tail.Overlay.ListEntry);
#if WRONG == 6
        if (Irp != NULL || PeekContext == NULL || PeekContext == (PVOID)FileOf(Next)) {
#else
        if (PeekContext == NULL || PeekContext == (PVOID)FileOf(Next)) {
#endif
            return Next;
        }
    }
    return NULL;
}

static VOID NTAPI LockWaiting(PIO_CSQ Csq, PKIRQL Irql) {
    KeAcquireSpinLock(&Of(Csq)->Lock, Irql);
}

static VOID NTAPI UnlockWaiting(PIO_CSQ Csq, KIRQL Irql) {
    KeReleaseSpinLock(&Of(Csq)->Lock, Irql);
}

static VOID NTAPI CompleteWaiting(PIO_CSQ Csq, PIRP Irp) {
    UNREFERENCED_PARAMETER(Csq);
    CompleteRead(Irp, STATUS_CANCELLED, 0);
}

/* ---- The transfer ---- */
/* Sets the cancel routine. FALSE: a cancel that came before found none, so the caller completes the
 * read. */
static BOOLEAN BeginTransfer(PIRP Irp) {
    IoSetCancelRoutine(Irp, CancelTransfer);
#if WRONG == 1
    return TRUE;
#else
    return !Irp->Cancel || IoSetCancelRoutine(Irp, NULL) == NULL;
#endif
}

/* Begins the next one, if there is none. */
static VOID Start(PEXTENSION Extension) {
    PIRP Irp;
    BOOLEAN Begun;
    do {
        KIRQL Irql;
        KeAcquireSpinLock(&Extension->TransferLock, &Irql);
        Irp = Extension->Current == NULL ? IoCsqRemoveNextIrp(&Extension->Csq, NULL) : NULL;
        Begun = Irp != NULL && BeginTransfer(Irp);
        if (Begun) {
            Extension->Current = Irp;
        }
        KeReleaseSpinLock(&Extension->TransferLock, Irql);
        if (Irp != NULL && !Begun) {
            CompleteRead(Irp, STATUS_CANCELLED, 0);
        }
    } while (Irp != NULL && !Begun);
}

/* Ends the transfer, if it is one of this file object or File is null, and returns its read. Null:
 * there is none, or a canceller has it. */
static PIRP Stop(PEXTENSION Extension, PFILE_OBJECT File) {
    KIRQL Irql;
    PIRP Irp;
    KeAcquireSpinLock(&Extension->TransferLock, &Irql);
    Irp = Extension->Current;
    if (Irp != NULL &&
        ((File != NULL && FileOf(Irp) != File) || IoSetCancelRoutine(Irp, NULL) == NULL)) {
        Irp = NULL;
    }
    if (Irp != NULL) {
        Extension->Current = NULL;
    }
    KeReleaseSpinLock(&Extension->TransferLock, Irql);
    return Irp;
}

static VOID NTAPI CancelTransfer(PDEVICE_OBJECT DeviceObject, PIRP Irp) {
    PEXTENSION Extension = DeviceObject->DeviceExtension;
    KIRQL Irql;
    IoReleaseCancelSpinLock(Irp->CancelIrql);
    KeAcquireSpinLock(&Extension->TransferLock, &Irql);
    if (Extension->Current == Irp) {
        Extension->Current = NULL;
    }
    KeReleaseSpinLock(&Extension->TransferLock, Irql);
    CompleteRead(Irp, STATUS_CANCELLED, 0);
#if WRONG != 5
    Start(Extension);
#endif
}

/* ---- Dispatch routines ---- */
static NTSTATUS NTAPI Succeed(PDEVICE_OBJECT DeviceObject, PIRP Irp) {
    UNREFERENCED_PARAMETER(DeviceObject);
    return Complete(Irp, STATUS_SUCCESS, 0);
}

static NTSTATUS NTAPI Read(PDEVICE_OBJECT DeviceObject, PIRP Irp) {
    PEXTENSION Extension = DeviceObject->DeviceExtension;
    PRECORD Record = ExAllocatePoolWithTag(NonPagedPoolNx, sizeof(RECORD), TAG);
    NTSTATUS Status;
    if (Record == NULL) {
#if WRONG == 2
        return STATUS_INSUFFICIENT_RESOURCES;
#else
        return Complete(Irp, STATUS_INSUFFICIENT_RESOURCES, 0);
#endif
    }
    Record->Length = IoGetCurrentIrpStackLocation(Irp)->Parameters.Read.Length;
    Record->Ended = 0;
    Irp->Tail.Overlay.DriverContext[0] = Record;
    Status = IoCsqInsertIrpEx(&Extension->Csq, Irp, NULL, NULL);
    if (!NT_SUCCESS(Status)) {
        return CompleteRead(Irp, Status, 0);
    }
    Start(Extension);
    return STATUS_PENDING;
}

static NTSTATUS NTAPI Write(PDEVICE_OBJECT DeviceObject, PIRP Irp) {
    PEXTENSION Extension = DeviceObject->DeviceExtension;
    ULONG Count = IoGetCurrentIrpStackLocation(Irp)->Parameters.Write.Length;
    PIRP Ended = Stop(Extension, NULL);
    if (Ended != NULL) {
        ULONG Length = RecordOf(Ended)->Length;
        if (Length > 0) {
            UCHAR Byte = Count > 0 ? *(PUCHAR)Irp->AssociatedIrp.SystemBuffer : (UCHAR)0;
            RtlFillMemory(Ended->AssociatedIrp.SystemBuffer, WRONG == 3 ? 1 : Length, Byte);
        }
#if WRONG == 7
        /* A warning: the bytes are copied too. */
        CompleteRead(Ended, STATUS_BUFFER_OVERFLOW, (ULONG_PTR)Length + 1);
#else
        CompleteRead(Ended, STATUS_SUCCESS, Length);
#endif
        Start(Extension);
    }
    return Complete(Irp, STATUS_SUCCESS, Count);
}

static NTSTATUS NTAPI Cleanup(PDEVICE_OBJECT DeviceObject, PIRP Irp) {
    PEXTENSION Extension = DeviceObject->DeviceExtension;
    PFILE_OBJECT File = FileOf(Irp);
    KIRQL Irql;
    PIRP Left;
    KeAcquireSpinLock(&Extension->Lock, &Irql);
    File->FsContext = Extension; /* from now on InsertWaiting refuses */
    KeReleaseSpinLock(&Extension->Lock, Irql);
    while ((Left = IoCsqRemoveNextIrp(&Extension->Csq, File)) != NULL) {
        CompleteRead(Left, STATUS_CANCELLED, 0);
    }
    if ((Left = Stop(Extension, File)) != NULL) {
        CompleteRead(Left, STATUS_CANCELLED, 0);
        Start(Extension);
    }
    return Complete(Irp, STATUS_SUCCESS, 0);
}

/* A read may wait while there is a transfer: its own, or one before it. */
BOOLEAN MayWait(PIRP Irp);
BOOLEAN MayWait(PIRP Irp) {
    PIO_STACK_LOCATION Location = IoGetCurrentIrpStackLocation(Irp);
    PEXTENSION Extension = Location->DeviceObject->DeviceExtension;
    return Location->MajorFunction == IRP_MJ_READ && Extension->Current != NULL;
}

/* ---- Beginning and end ---- */
static VOID NTAPI Unload(PDRIVER_OBJECT DriverObject) {
    IoDeleteDevice(DriverObject->DeviceObject);
}

NTSTATUS NTAPI DriverEntry(PDRIVER_OBJECT DriverObject, PUNICODE_STRING RegistryPath) {
    PDEVICE_OBJECT DeviceObject;
    PEXTENSION Extension;
    NTSTATUS Status = IoCreateDevice(DriverObject, sizeof(EXTENSION), NULL, FILE_DEVICE_UNKNOWN, 0,
                                     FALSE, &DeviceObject);
    UNREFERENCED_PARAMETER(RegistryPath);
    if (!NT_SUCCESS(Status)) {
        return Status;
    }
    Extension = DeviceObject->DeviceExtension;
    KeInitializeSpinLock(&Extension->Lock);
    KeInitializeSpinLock(&Extension->TransferLock);
    InitializeListHead(&Extension->Waiting);
    IoCsqInitializeEx(&Extension->Csq, InsertWaiting, RemoveWaiting, PeekWaiting, LockWaiting,
                      UnlockWaiting, CompleteWaiting);
    DriverObject->DriverUnload = Unload;
    DriverObject->MajorFunction[IRP_MJ_CREATE] = DriverObject->MajorFunction[IRP_MJ_CLOSE] =
        Succeed;
    DriverObject->MajorFunction[IRP_MJ_READ] = Read;
    DriverObject->MajorFunction[IRP_MJ_WRITE] = Write;
    DriverObject->MajorFunction[IRP_MJ_CLEANUP] = Cleanup;
    DeviceObject->Flags |= DO_BUFFERED_IO;
    DeviceObject->Flags &= ~(ULONG)DO_DEVICE_INITIALIZING;
    return STATUS_SUCCESS;
}
