/* A DPC serves the requests until none waits. The device is idle from the moment at which
 * CsqPeekNextIrp, asked for any IRP, finds none: under the queue's lock, so the next IRP that is
 * queued starts the DPC again. The policy says PeekHasEffects. */
#include <ntddk.h>
#include <csq.h>

#ifndef WRONG
#define WRONG 0
#endif

#define POOL_TAG 'eldI'

/* What a file object's FsContext points to. */
typedef struct _OPEN_FILE {
    BOOLEAN Cleaned; /* under the queue's lock: its IRPs are queued no more */
} OPEN_FILE, *POPEN_FILE;

typedef struct _DEVICE {
    IO_CSQ Requests;
    KSPIN_LOCK Lock;
    LIST_ENTRY List; /* under Lock, with the next */
    BOOLEAN Idle;
    KDPC Server;
} DEVICE, *PDEVICE;

DRIVER_INITIALIZE DriverEntry;
static DRIVER_DISPATCH Create, ReadWrite, Cleanup, Close;
static DRIVER_UNLOAD Unload;
static KDEFERRED_ROUTINE Serve;

static PDEVICE Of(PIO_CSQ Csq) {
    return CONTAINING_RECORD(Csq, DEVICE, Requests);
}

static PFILE_OBJECT FileOf(PIRP Irp) {
    return IoGetCurrentIrpStackLocation(Irp)->FileObject;
}

static NTSTATUS Complete(PIRP Irp, NTSTATUS Status) {
    Irp->IoStatus.Status = Status;
    Irp->IoStatus.Information = 0;
    IoCompleteRequest(Irp, IO_NO_INCREMENT);
    return Status;
}

/* ---- The queue ---- */
/* InsertContext is a BOOLEAN that says afterwards whether the device was idle. */
static NTSTATUS NTAPI Insert(PIO_CSQ Csq, PIRP Irp, PVOID InsertContext) {
    POPEN_FILE Open = FileOf(Irp)->FsContext;
    if (Open->Cleaned) {
        return STATUS_FILE_CLOSED;
    }
    *(PBOOLEAN)InsertContext = Of(Csq)->Idle;
    Of(Csq)->Idle = FALSE;
    InsertTailList(&Of(Csq)->List, &Irp->Tail.Overlay.ListEntry);
    return STATUS_PENDING;
}

static VOID NTAPI Remove(PIO_CSQ Csq, PIRP Irp) {
    UNREFERENCED_PARAMETER(Csq);
    RemoveEntryList(&Irp->Tail.Overlay.ListEntry);
}

static PIRP NTAPI PeekOrIdle(PIO_CSQ Csq, PIRP Irp, PVOID PeekContext) {
    PLIST_ENTRY Entry = Irp == NULL ? Of(Csq)->List.Flink : Irp->Tail.Overlay.ListEntry.Flink;
    for (; Entry != &Of(Csq)->List; Entry = Entry->Flink) {
        PIRP Match = CONTAINING_RECORD(Entry, IRP, Tail.Overlay.ListEntry);
        if (PeekContext == NULL || PeekContext == FileOf(Match)) {
            return Match;
        }
    }
#if WRONG == 1
    if (PeekContext == NULL && IsListEmpty(&Of(Csq)->List)) { /* but for a canceller's IRP */
#else
    if (PeekContext == NULL) {
#endif
        Of(Csq)->Idle = TRUE;
    }
    return NULL;
}

static VOID NTAPI Acquire(PIO_CSQ Csq, PKIRQL Irql) {
    KeAcquireSpinLock(&Of(Csq)->Lock, Irql);
}

static VOID NTAPI Release(PIO_CSQ Csq, KIRQL Irql) {
    KeReleaseSpinLock(&Of(Csq)->Lock, Irql);
}

static VOID NTAPI CompleteCanceled(PIO_CSQ Csq, PIRP Irp) {
    UNREFERENCED_PARAMETER(Csq);
    Complete(Irp, STATUS_CANCELLED);
}

static VOID NTAPI Serve(PKDPC Dpc, PVOID DeferredContext, PVOID SystemArgument1,
                        PVOID SystemArgument2) {
    PDEVICE Device = DeferredContext;
    PIRP Irp;
    UNREFERENCED_PARAMETER(Dpc);
    UNREFERENCED_PARAMETER(SystemArgument1);
    UNREFERENCED_PARAMETER(SystemArgument2);
    while ((Irp = IoCsqRemoveNextIrp(&Device->Requests, NULL)) != NULL) {
        Complete(Irp, STATUS_SUCCESS);
    }
}

/* ---- Dispatch routines ---- */
static NTSTATUS NTAPI Create(PDEVICE_OBJECT DeviceObject, PIRP Irp) {
    POPEN_FILE Open = ExAllocatePoolWithTag(NonPagedPool, sizeof(OPEN_FILE), POOL_TAG);
    UNREFERENCED_PARAMETER(DeviceObject);
    if (Open == NULL) {
        return Complete(Irp, STATUS_INSUFFICIENT_RESOURCES);
    }
    Open->Cleaned = FALSE;
    FileOf(Irp)->FsContext = Open;
    return Complete(Irp, STATUS_SUCCESS);
}

static NTSTATUS NTAPI ReadWrite(PDEVICE_OBJECT DeviceObject, PIRP Irp) {
    PDEVICE Device = DeviceObject->DeviceExtension;
    BOOLEAN WasIdle = FALSE;
    NTSTATUS Status = IoCsqInsertIrpEx(&Device->Requests, Irp, NULL, &WasIdle);
    if (WasIdle) {
        BOOLEAN Queued = KeInsertQueueDpc(&Device->Server, NULL, NULL);
        ASSERT(Queued); /* since only that DPC makes the device idle, as its last peek */
        UNREFERENCED_PARAMETER(Queued);
    }
    return NT_SUCCESS(Status) ? STATUS_PENDING : Complete(Irp, Status);
}

static NTSTATUS NTAPI Cleanup(PDEVICE_OBJECT DeviceObject, PIRP Irp) {
    PDEVICE Device = DeviceObject->DeviceExtension;
    PFILE_OBJECT File = FileOf(Irp);
    POPEN_FILE Open = File->FsContext;
    PVOID Context = WRONG == 3 ? (PVOID)Open : (PVOID)File; /* the peek compares file objects */
    KIRQL Irql;
    PIRP Left;
    KeAcquireSpinLock(&Device->Lock, &Irql);
    Open->Cleaned = TRUE;
    KeReleaseSpinLock(&Device->Lock, Irql);
    while ((Left = IoCsqRemoveNextIrp(&Device->Requests, Context)) != NULL) {
        Complete(Left, STATUS_CANCELLED);
    }
    return Complete(Irp, STATUS_SUCCESS);
}

static NTSTATUS NTAPI Close(PDEVICE_OBJECT DeviceObject, PIRP Irp) {
    UNREFERENCED_PARAMETER(DeviceObject);
    ExFreePoolWithTag(FileOf(Irp)->FsContext, POOL_TAG);
    return Complete(Irp, STATUS_SUCCESS);
}

static VOID NTAPI Unload(PDRIVER_OBJECT DriverObject) {
    KeFlushQueuedDpcs();
    IoDeleteDevice(DriverObject->DeviceObject);
}

NTSTATUS NTAPI DriverEntry(PDRIVER_OBJECT DriverObject, PUNICODE_STRING RegistryPath) {
    PDEVICE_OBJECT DeviceObject;
    PDEVICE Device;
    NTSTATUS Status = IoCreateDevice(DriverObject, sizeof(DEVICE), NULL, FILE_DEVICE_UNKNOWN, 0,
                                     FALSE, &DeviceObject);
    UNREFERENCED_PARAMETER(RegistryPath);
    if (!NT_SUCCESS(Status)) {
        return Status;
    }
    DeviceObject->Flags |= DO_BUFFERED_IO;
    Device = DeviceObject->DeviceExtension;
    Device->Idle = TRUE;
    KeInitializeSpinLock(&Device->Lock);
    InitializeListHead(&Device->List);
    KeInitializeDpc(&Device->Server, Serve, Device);
    IoCsqInitializeEx(&Device->Requests, Insert, Remove, PeekOrIdle, Acquire, Release,
                      CompleteCanceled);
    DriverObject->DriverUnload = Unload;
    DriverObject->MajorFunction[IRP_MJ_CREATE] = Create;
    DriverObject->MajorFunction[IRP_MJ_READ] = ReadWrite;
    DriverObject->MajorFunction[IRP_MJ_WRITE] = ReadWrite;
    DriverObject->MajorFunction[IRP_MJ_CLEANUP] = Cleanup;
    DriverObject->MajorFunction[IRP_MJ_CLOSE] = Close;
    return STATUS_SUCCESS;
}
