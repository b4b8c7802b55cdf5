/* A queue in which one read at a time has a context, by which a device control takes it out; a DPC
 * ends the oldest. It is wrong in what each callback owes its lock, and what each call owes the
 * queue. */
#include <ntddk.h>
#include <csq.h>

#ifndef WRONG
#define WRONG 0
#endif

typedef struct _EXTENSION {
    IO_CSQ Queue;
    LIST_ENTRY Irps; /* under Lock */
    KSPIN_LOCK Lock, Other;
    ERESOURCE Shared;
    IO_CSQ_IRP_CONTEXT Context;
    PVOID ContextIrp; /* the read that has it until it is completed, or null */
    PIRP Pending; /* of WRONG == 10 */
    KDPC Dpc;
} EXTENSION, *PEXTENSION;

static PEXTENSION ExtensionOf(PIO_CSQ Csq) {
    return CONTAINING_RECORD(Csq, EXTENSION, Queue);
}

static NTSTATUS Finish(PIRP Irp, NTSTATUS Status) {
    Irp->IoStatus.Status = Status;
    Irp->IoStatus.Information = 0;
    IoCompleteRequest(Irp, IO_NO_INCREMENT);
    return Status;
}

/* Only now is its context free: where a removal by it finds nothing, a canceller may still have the
 * read, and its cancel routine writes to the context. */
static NTSTATUS FinishRead(PEXTENSION Extension, PIRP Irp, NTSTATUS Status) {
    InterlockedCompareExchangePointer(&Extension->ContextIrp, NULL, (PVOID)Irp);
    return Finish(Irp, Status);
}

/* ---- The queue's callbacks ---- */
static VOID NTAPI Acquire(PIO_CSQ Csq, PKIRQL Irql) {
    PEXTENSION Extension = ExtensionOf(Csq);
#if WRONG == 6
    ExAcquireResourceSharedLite(&Extension->Shared, TRUE); /* which others share */
    *Irql = KeGetCurrentIrql();
#elif WRONG == 1
    KeAcquireSpinLock(IsListEmpty(&Extension->Irps) ? &Extension->Lock : &Extension->Other, Irql);
#elif WRONG == 3
    KeAcquireSpinLock(&Extension->Other, Irql);
    KeAcquireSpinLockAtDpcLevel(&Extension->Lock);
#else
    KeAcquireSpinLock(&Extension->Lock, Irql);
#endif
}

static VOID NTAPI Release(PIO_CSQ Csq, KIRQL Irql) {
    PEXTENSION Extension = ExtensionOf(Csq);
#if WRONG == 6
    UNREFERENCED_PARAMETER(Irql);
    ExReleaseResourceLite(&Extension->Shared);
#elif WRONG == 2
    KeReleaseSpinLock(&Extension->Lock, Irql);
    KeRaiseIrql(DISPATCH_LEVEL, &Irql);
#elif WRONG == 3
    UNREFERENCED_PARAMETER(Irql);
    KeReleaseSpinLockFromDpcLevel(&Extension->Lock);
#else
    KeReleaseSpinLock(&Extension->Lock, Irql);
#endif
}

static NTSTATUS NTAPI Insert(PIO_CSQ Csq, PIRP Irp, PVOID InsertContext) {
    PEXTENSION Extension = ExtensionOf(Csq);
    UNREFERENCED_PARAMETER(InsertContext);
    if (IoGetCurrentIrpStackLocation(Irp)->FileObject->FsContext != NULL) {
        return STATUS_FILE_CLOSED;
    }
#if WRONG == 5
    KeReleaseSpinLockFromDpcLevel(&Extension->Lock);
    KeAcquireSpinLockAtDpcLevel(&Extension->Lock);
#endif
    InsertTailList(&Extension->Irps, &Irp->Tail.Overlay.ListEntry);
    return STATUS_PENDING;
}

static VOID NTAPI Remove(PIO_CSQ Csq, PIRP Irp) {
    RemoveEntryList(&Irp->Tail.Overlay.ListEntry);
#if WRONG == 4
    IoCsqRemoveNextIrp(Csq, NULL);
#else
    UNREFERENCED_PARAMETER(Csq);
#endif
}

static PIRP NTAPI Peek(PIO_CSQ Csq, PIRP Irp, PVOID PeekContext) {
    PLIST_ENTRY Head = &ExtensionOf(Csq)->Irps;
    PLIST_ENTRY Entry = Irp != NULL ? Irp->Tail.Overlay.ListEntry.Flink : Head->Flink;
    for (; Entry != Head; Entry = Entry->Flink) {
        PIRP Next = CONTAINING_RECORD(Entry, IRP, Tail.Overlay.ListEntry);
        if (PeekContext == NULL || PeekContext == IoGetCurrentIrpStackLocation(Next)->FileObject) {
            return Next;
        }
    }
    return NULL;
}

static VOID NTAPI CompleteCanceled(PIO_CSQ Csq, PIRP Irp) {
    FinishRead(ExtensionOf(Csq), Irp, STATUS_CANCELLED);
}

/* ---- Requests ---- */
static NTSTATUS NTAPI Read(PDEVICE_OBJECT DeviceObject, PIRP Irp) {
    PEXTENSION Extension = DeviceObject->DeviceExtension;
    BOOLEAN Mine =
        InterlockedCompareExchangePointer(&Extension->ContextIrp, (PVOID)Irp, NULL) == NULL;
    NTSTATUS Status =
        IoCsqInsertIrpEx(&Extension->Queue, Irp,
                         Mine || WRONG == 7 ? &Extension->Context : NULL, NULL);
    if (!NT_SUCCESS(Status)) {
        return FinishRead(Extension, Irp, Status);
    }
#if WRONG == 9
    IoSetCancelRoutine(Irp, NULL);
#endif
    return STATUS_PENDING;
}

/* Takes the read with the context out, if it is still there. */
static NTSTATUS NTAPI Control(PDEVICE_OBJECT DeviceObject, PIRP Irp) {
    PEXTENSION Extension = DeviceObject->DeviceExtension;
    PIRP Found;
#if WRONG == 8
    Extension->Context.Irp = Irp;
#endif
    Found = IoCsqRemoveIrp(&Extension->Queue, &Extension->Context);
    if (Found != NULL) {
        FinishRead(Extension, Found, WRONG == 11 ? STATUS_PENDING : STATUS_SUCCESS);
    }
#if WRONG == 16
    InterlockedExchangePointer(&Extension->ContextIrp, NULL); /* though a canceller may have it */
#endif
    return Finish(Irp, STATUS_SUCCESS);
}

static VOID NTAPI EndOldest(PKDPC Dpc, PVOID DeferredContext, PVOID SystemArgument1,
                            PVOID SystemArgument2) {
    PEXTENSION Extension = DeferredContext;
    PIRP Irp = IoCsqRemoveNextIrp(&Extension->Queue, NULL);
    UNREFERENCED_PARAMETER(Dpc);
    UNREFERENCED_PARAMETER(SystemArgument1);
    UNREFERENCED_PARAMETER(SystemArgument2);
    if (Irp != NULL) {
        FinishRead(Extension, Irp, STATUS_TIMEOUT);
    }
#if WRONG == 10
    Irp = InterlockedExchangePointer((PVOID *)&Extension->Pending, NULL);
    if (Irp != NULL) {
        Finish(Irp, STATUS_SUCCESS);
    }
#endif
#if WRONG == 12
    KeLowerIrql(PASSIVE_LEVEL);
#endif
}

static NTSTATUS NTAPI Write(PDEVICE_OBJECT DeviceObject, PIRP Irp) {
    PEXTENSION Extension = DeviceObject->DeviceExtension;
#if WRONG == 10
    if (InterlockedCompareExchangePointer((PVOID *)&Extension->Pending, Irp, NULL) == NULL) {
        KeInsertQueueDpc(&Extension->Dpc, NULL, NULL);
        return STATUS_PENDING; /* and it isn't marked */
    }
#endif
#if WRONG == 6
    EndOldest(NULL, Extension, NULL, NULL);
#else
    KeInsertQueueDpc(&Extension->Dpc, NULL, NULL);
#endif
#if WRONG == 13
    IoMarkIrpPending(Irp);
#endif
    return Finish(Irp, STATUS_SUCCESS);
}

static NTSTATUS NTAPI Cleanup(PDEVICE_OBJECT DeviceObject, PIRP Irp) {
    PEXTENSION Extension = DeviceObject->DeviceExtension;
    PFILE_OBJECT File = IoGetCurrentIrpStackLocation(Irp)->FileObject;
    PIRP Found;
    KIRQL Irql;
    Acquire(&Extension->Queue, &Irql);
    File->FsContext = Extension;
    Release(&Extension->Queue, Irql);
    while ((Found = IoCsqRemoveNextIrp(&Extension->Queue, File)) != NULL) {
        FinishRead(Extension, Found, STATUS_CANCELLED);
    }
    return Finish(Irp, STATUS_SUCCESS);
}

static NTSTATUS NTAPI Succeed(PDEVICE_OBJECT DeviceObject, PIRP Irp) {
    UNREFERENCED_PARAMETER(DeviceObject);
    return Finish(Irp, STATUS_SUCCESS);
}

static VOID NTAPI Unload(PDRIVER_OBJECT DriverObject) {
    PEXTENSION Extension = DriverObject->DeviceObject->DeviceExtension;
    KeFlushQueuedDpcs();
    ExDeleteResourceLite(&Extension->Shared);
#if WRONG == 14
    ExAllocatePoolWithTag(NonPagedPoolNx, 16, 'tsoL');
#endif
#if WRONG != 15
    IoDeleteDevice(DriverObject->DeviceObject);
#endif
}

DRIVER_INITIALIZE DriverEntry;
NTSTATUS NTAPI DriverEntry(PDRIVER_OBJECT DriverObject, PUNICODE_STRING RegistryPath) {
    PDEVICE_OBJECT DeviceObject;
    PEXTENSION Extension;
    NTSTATUS Status = IoCreateDevice(DriverObject, sizeof(EXTENSION), NULL, FILE_DEVICE_UNKNOWN, 0,
                                     FALSE, &DeviceObject);
    UNREFERENCED_PARAMETER(RegistryPath);
    if (!NT_SUCCESS(Status)) {
        return Status;
    }
    DeviceObject->Flags |= DO_BUFFERED_IO;
    Extension = DeviceObject->DeviceExtension;
    InitializeListHead(&Extension->Irps);
    KeInitializeSpinLock(&Extension->Lock);
    KeInitializeSpinLock(&Extension->Other);
    ExInitializeResourceLite(&Extension->Shared);
    KeInitializeDpc(&Extension->Dpc, EndOldest, Extension);
    IoCsqInitializeEx(&Extension->Queue, Insert, Remove, Peek, Acquire, Release, CompleteCanceled);
    DriverObject->DriverUnload = Unload;
    DriverObject->MajorFunction[IRP_MJ_CREATE] = Succeed;
    DriverObject->MajorFunction[IRP_MJ_CLOSE] = Succeed;
    DriverObject->MajorFunction[IRP_MJ_READ] = Read;
    DriverObject->MajorFunction[IRP_MJ_WRITE] = Write;
    DriverObject->MajorFunction[IRP_MJ_DEVICE_CONTROL] = Control;
    DriverObject->MajorFunction[IRP_MJ_CLEANUP] = Cleanup;
    return STATUS_SUCCESS;
}
