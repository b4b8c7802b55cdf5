/* Requests of all file objects wait in one queue, and each event is for one file object: its reads
 * are looked for by a peek. What refers to a file object in the meantime has a reference to it. */
#include <ntddk.h>
#include <csq.h>

#ifndef WRONG
#define WRONG 0
#endif

typedef struct _EXTENSION {
    IO_CSQ Csq;
    LIST_ENTRY Pending; /* under Lock */
    KSPIN_LOCK Lock;
    KDPC Notify;
    PFILE_OBJECT Notified; /* whom the DPC serves, with a reference; null: it isn't queued */
    KSPIN_LOCK NotifyLock;
} EXTENSION, *PEXTENSION;

DRIVER_INITIALIZE DriverEntry;

static NTSTATUS Finish(PIRP Irp, NTSTATUS Status, ULONG_PTR Information) {
    Irp->IoStatus.Status = Status;
    Irp->IoStatus.Information = Information;
    IoCompleteRequest(Irp, EVENT_INCREMENT);
    return Status;
}

static PFILE_OBJECT FileOf(PIRP Irp) {
    return IoGetCurrentIrpStackLocation(Irp)->FileObject;
}

static NTSTATUS NTAPI Insert(PIO_CSQ Csq, PIRP Irp, PVOID InsertContext) {
    UNREFERENCED_PARAMETER(InsertContext);
    if (FileOf(Irp)->FsContext != NULL) {
        return STATUS_FILE_CLOSED;
    }
    InsertTailList(&CONTAINING_RECORD(Csq, EXTENSION, Csq)->Pending, &Irp->Tail.Overlay.ListEntry);
    return STATUS_PENDING;
}

static VOID NTAPI Remove(PIO_CSQ Csq, PIRP Irp) {
    UNREFERENCED_PARAMETER(Csq);
    RemoveEntryList(&Irp->Tail.Overlay.ListEntry);
}

static PIRP NTAPI Peek(PIO_CSQ Csq, PIRP Irp, PVOID File) {
    PLIST_ENTRY Head = &CONTAINING_RECORD(Csq, EXTENSION, Csq)->Pending;
    PLIST_ENTRY Entry = (Irp ? &Irp->Tail.Overlay.ListEntry : Head)->Flink;
    while (Entry != Head && File != NULL &&
           FileOf(CONTAINING_RECORD(Entry, IRP, Tail.Overlay.ListEntry)) != (PFILE_OBJECT)File) {
        Entry = Entry->Flink;
    }
    return Entry == Head ? NULL : CONTAINING_RECORD(Entry, IRP, Tail.Overlay.ListEntry);
}

static VOID NTAPI Lock(PIO_CSQ Csq, PKIRQL Irql) {
    KeAcquireSpinLock(&CONTAINING_RECORD(Csq, EXTENSION, Csq)->Lock, Irql);
}

static VOID NTAPI Unlock(PIO_CSQ Csq, KIRQL Irql) {
    KeReleaseSpinLock(&CONTAINING_RECORD(Csq, EXTENSION, Csq)->Lock, Irql);
}

static VOID NTAPI Canceled(PIO_CSQ Csq, PIRP Irp) {
    UNREFERENCED_PARAMETER(Csq);
    Finish(Irp, STATUS_CANCELLED, 0);
}

/* ---- Whom the DPC serves ---- */
static PFILE_OBJECT ExchangeNotified(PEXTENSION Extension, PFILE_OBJECT File, BOOLEAN IfNone) {
    KLOCK_QUEUE_HANDLE Handle;
    PFILE_OBJECT Before;
    KeAcquireInStackQueuedSpinLock(&Extension->NotifyLock, &Handle);
    Before = Extension->Notified;
    if (Before == NULL || !IfNone) {
        Extension->Notified = File;
    }
    KeReleaseInStackQueuedSpinLock(&Handle);
    return Before;
}

static VOID ServeFile(PEXTENSION Extension, PFILE_OBJECT File) {
    PIRP Irp = IoCsqRemoveNextIrp(&Extension->Csq, File);
    if (Irp != NULL) {
        ULONG Length = IoGetCurrentIrpStackLocation(Irp)->Parameters.Read.Length;
        RtlZeroMemory(Irp->AssociatedIrp.SystemBuffer, Length);
        Finish(Irp, STATUS_SUCCESS, Length);
    }
}

static KDEFERRED_ROUTINE NotifyDpc;
static VOID NTAPI NotifyDpc(PKDPC Dpc, PVOID DeferredContext, PVOID SystemArgument1,
                            PVOID SystemArgument2) {
    PEXTENSION Extension = DeferredContext;
    PFILE_OBJECT File = ExchangeNotified(Extension, NULL, FALSE);
    UNREFERENCED_PARAMETER(Dpc);
    UNREFERENCED_PARAMETER(SystemArgument1);
    UNREFERENCED_PARAMETER(SystemArgument2);
    ServeFile(Extension, File);
#if WRONG != 1
    ObDereferenceObject(File);
#endif
#if WRONG == 2
    ObDereferenceObject(File);
#endif
}

/* ---- Dispatch routines ---- */
static NTSTATUS NTAPI Open(PDEVICE_OBJECT DeviceObject, PIRP Irp) {
    UNREFERENCED_PARAMETER(DeviceObject);
    return Finish(Irp, STATUS_SUCCESS, 0);
}

static NTSTATUS NTAPI Read(PDEVICE_OBJECT DeviceObject, PIRP Irp) {
    PEXTENSION Extension = DeviceObject->DeviceExtension;
    NTSTATUS Status = IoCsqInsertIrpEx(&Extension->Csq, Irp, NULL, NULL);
    return NT_SUCCESS(Status) ? Status : Finish(Irp, Status, 0);
}

static NTSTATUS NTAPI Write(PDEVICE_OBJECT DeviceObject, PIRP Irp) {
    PEXTENSION Extension = DeviceObject->DeviceExtension;
    PFILE_OBJECT File = FileOf(Irp);
    ObReferenceObject(File);
    if (ExchangeNotified(Extension, File, TRUE) == NULL) {
        KeInsertQueueDpc(&Extension->Notify, NULL, NULL);
    } else {
        ObDereferenceObject(File);
        ServeFile(Extension, File);
    }
    return Finish(Irp, STATUS_SUCCESS, IoGetCurrentIrpStackLocation(Irp)->Parameters.Write.Length);
}

static NTSTATUS NTAPI Cleanup(PDEVICE_OBJECT DeviceObject, PIRP Irp) {
    PEXTENSION Extension = DeviceObject->DeviceExtension;
    PFILE_OBJECT File = FileOf(Irp);
    KIRQL Irql;
    PIRP Pending;
    KeAcquireSpinLock(&Extension->Lock, &Irql);
    File->FsContext = Extension;
    KeReleaseSpinLock(&Extension->Lock, Irql);
    while ((Pending = IoCsqRemoveNextIrp(&Extension->Csq, File)) != NULL) {
        Finish(Pending, STATUS_CANCELLED, 0);
    }
    return Finish(Irp, STATUS_SUCCESS, 0);
}

static VOID NTAPI Unload(PDRIVER_OBJECT DriverObject) {
    PEXTENSION Extension = DriverObject->DeviceObject->DeviceExtension;
    KeFlushQueuedDpcs();
    NT_ASSERT(Extension->Notified == NULL && IsListEmpty(&Extension->Pending));
    UNREFERENCED_LOCAL_VARIABLE(Extension);
    IoDeleteDevice(DriverObject->DeviceObject);
}

NTSTATUS NTAPI DriverEntry(PDRIVER_OBJECT DriverObject, PUNICODE_STRING RegistryPath) {
    PDEVICE_OBJECT DeviceObject;
    PEXTENSION Extension;
    NTSTATUS Status = IoCreateDevice(DriverObject, sizeof(EXTENSION), NULL, FILE_DEVICE_UNKNOWN, 0,
                                     FALSE, &DeviceObject);
    UNREFERENCED_PARAMETER(RegistryPath);
    if (!NT_SUCCESS(Status)) {
        return Status;
    }
    Extension = DeviceObject->DeviceExtension;
    InitializeListHead(&Extension->Pending);
    KeInitializeSpinLock(&Extension->Lock);
    KeInitializeSpinLock(&Extension->NotifyLock);
    KeInitializeDpc(&Extension->Notify, NotifyDpc, Extension);
    IoCsqInitializeEx(&Extension->Csq, Insert, Remove, Peek, Lock, Unlock, Canceled);
    DeviceObject->Flags |= DO_BUFFERED_IO;
    DriverObject->DriverUnload = Unload;
    DriverObject->MajorFunction[IRP_MJ_CREATE] = DriverObject->MajorFunction[IRP_MJ_CLOSE] = Open;
    DriverObject->MajorFunction[IRP_MJ_READ] = Read;
    DriverObject->MajorFunction[IRP_MJ_WRITE] = Write;
    DriverObject->MajorFunction[IRP_MJ_CLEANUP] = Cleanup;
    return STATUS_SUCCESS;
}
