/* A device that works at one request at a time: one that comes while it is idle is started at once,
 * which the insert callback says by a refusal, and the others wait. Its timer's DPC ends a request,
 * and starts the next. */
#include <ntddk.h>
#include <csq.h>

#ifndef WRONG
#define WRONG 0
#endif

typedef struct _EXTENSION {
    IO_CSQ Csq;
    KSPIN_LOCK Lock;
    LIST_ENTRY Waiting;     /* under Lock, with DeviceObject->CurrentIrp */
    ULONG Inserts;          /* how many were ever listed, under Lock */
    PDEVICE_OBJECT Self;
    KLOCK_QUEUE_HANDLE Handle; /* of WRONG == 1 */
    KTIMER Work;
    KDPC Done;
} EXTENSION, *PEXTENSION;

DRIVER_INITIALIZE DriverEntry;
static DRIVER_DISPATCH Open, ReadWrite, Cleanup;
static KDEFERRED_ROUTINE WorkDone;

static PEXTENSION Of(PIO_CSQ Csq) {
    return CONTAINING_RECORD(Csq, EXTENSION, Csq);
}

static NTSTATUS Complete(PIRP Irp, NTSTATUS Status, CCHAR Boost) {
    Irp->IoStatus.Status = Status;
    Irp->IoStatus.Information = 0;
    IoCompleteRequest(Irp, Boost);
    return Status;
}

static NTSTATUS NTAPI InsertOrStart(PIO_CSQ Csq, PIRP Irp, PVOID InsertContext) {
    UNREFERENCED_PARAMETER(InsertContext);
    if (IoGetCurrentIrpStackLocation(Irp)->FileObject->FsContext != NULL) {
        return STATUS_FILE_CLOSED;
    }
    if (Of(Csq)->Self->CurrentIrp == NULL) {
        Of(Csq)->Self->CurrentIrp = Irp;
        return STATUS_UNSUCCESSFUL; /* it isn't queued: the caller starts it */
    }
    Of(Csq)->Inserts++;
    InsertTailList(&Of(Csq)->Waiting, &Irp->Tail.Overlay.ListEntry);
    return STATUS_SUCCESS;
}

static VOID NTAPI Remove(PIO_CSQ Csq, PIRP Irp) {
    UNREFERENCED_PARAMETER(Csq);
    RemoveEntryList(&Irp->Tail.Overlay.ListEntry);
}

static PIRP NTAPI Peek(PIO_CSQ Csq, PIRP Irp, PVOID PeekContext) {
    PLIST_ENTRY Entry = Irp ? Irp->Tail.Overlay.ListEntry.Flink : Of(Csq)->Waiting.Flink;
    for (; Entry != &Of(Csq)->Waiting; Entry = Entry->Flink) {
        PIRP Next = CONTAINING_RECORD(Entry, IRP, Tail.Overlay.ListEntry);
        if (PeekContext == NULL ||
            PeekContext == (PVOID)IoGetCurrentIrpStackLocation(Next)->FileObject) {
            return Next;
        }
    }
    return NULL;
}

static VOID NTAPI Lock(PIO_CSQ Csq, PKIRQL Irql) {
#if WRONG == 1
    /* One handle for all threads. */
    KeAcquireInStackQueuedSpinLock(&Of(Csq)->Lock, &Of(Csq)->Handle);
    *Irql = Of(Csq)->Handle.OldIrql;
#else
    KeAcquireSpinLock(&Of(Csq)->Lock, Irql);
#endif
}

static VOID NTAPI Unlock(PIO_CSQ Csq, KIRQL Irql) {
#if WRONG == 1
    UNREFERENCED_PARAMETER(Irql);
    KeReleaseInStackQueuedSpinLock(&Of(Csq)->Handle);
#else
    KeReleaseSpinLock(&Of(Csq)->Lock, Irql);
#endif
}

static VOID NTAPI Canceled(PIO_CSQ Csq, PIRP Irp) {
    UNREFERENCED_PARAMETER(Csq);
    Complete(Irp, STATUS_CANCELLED, IO_NO_INCREMENT);
}

/* ---- The device ---- */
static VOID StartIo(PDEVICE_OBJECT DeviceObject, PIRP Irp) {
    PEXTENSION Extension = DeviceObject->DeviceExtension;
    LARGE_INTEGER Soon;
    Soon.QuadPart =
        IoGetCurrentIrpStackLocation(Irp)->MajorFunction == IRP_MJ_READ ? -1000LL : -500LL;
    KeSetTimer(&Extension->Work, Soon, &Extension->Done);
}

static PIRP ExchangeCurrent(PEXTENSION Extension, PIRP Next) {
    PIRP Before;
    KeAcquireSpinLockAtDpcLevel(&Extension->Lock);
    Before = Extension->Self->CurrentIrp;
    Extension->Self->CurrentIrp = Next;
    KeReleaseSpinLockFromDpcLevel(&Extension->Lock);
    return Before;
}

static ULONG InsertsOf(PEXTENSION Extension) {
    ULONG Inserts;
    KeAcquireSpinLockAtDpcLevel(&Extension->Lock);
    Inserts = Extension->Inserts;
    KeReleaseSpinLockFromDpcLevel(&Extension->Lock);
    return Inserts;
}

/* Makes the device idle, unless more IRPs were listed meanwhile than these: such a one waits for
 * this DPC. */
static BOOLEAN BecomesIdle(PEXTENSION Extension, ULONG Inserts) {
    BOOLEAN Idle;
    KeAcquireSpinLockAtDpcLevel(&Extension->Lock);
    Idle = WRONG == 3 ||
           (WRONG == 2 ? IsListEmpty(&Extension->Waiting) : Extension->Inserts == Inserts);
    if (Idle) {
        Extension->Self->CurrentIrp = NULL;
    }
    KeReleaseSpinLockFromDpcLevel(&Extension->Lock);
    return Idle;
}

/* The next one, or null and the device is idle. What is still listed then is a canceller's. This
 * DPC doesn't wait for a canceller to take its IRP out: that may be the thread that it has
 * interrupted. */
static PIRP NextOrIdle(PEXTENSION Extension) {
    for (;;) {
        ULONG Inserts = InsertsOf(Extension);
        PIRP Next = IoCsqRemoveNextIrp(&Extension->Csq, NULL);
        if (Next != NULL) {
            ExchangeCurrent(Extension, Next);
            return Next;
        }
        if (BecomesIdle(Extension, Inserts)) {
            return NULL;
        }
    }
}

static VOID NTAPI WorkDone(PKDPC Dpc, PVOID DeferredContext, PVOID SystemArgument1,
                           PVOID SystemArgument2) {
    PDEVICE_OBJECT DeviceObject = DeferredContext;
    PEXTENSION Extension = DeviceObject->DeviceExtension;
    PIRP Irp = DeviceObject->CurrentIrp;
    UNREFERENCED_PARAMETER(Dpc);
    UNREFERENCED_PARAMETER(SystemArgument1);
    UNREFERENCED_PARAMETER(SystemArgument2);
    PIRP Next = NextOrIdle(Extension);
    Complete(Irp, STATUS_SUCCESS, IO_DISK_INCREMENT);
    if (Next != NULL) {
        StartIo(DeviceObject, Next);
    }
}

/* ---- Dispatch routines ---- */
static NTSTATUS NTAPI Open(PDEVICE_OBJECT DeviceObject, PIRP Irp) {
    UNREFERENCED_PARAMETER(DeviceObject);
    return Complete(Irp, STATUS_SUCCESS, IO_NO_INCREMENT);
}

static NTSTATUS NTAPI ReadWrite(PDEVICE_OBJECT DeviceObject, PIRP Irp) {
    PEXTENSION Extension = DeviceObject->DeviceExtension;
    NTSTATUS Status;
    IoMarkIrpPending(Irp); /* before another thread may have it: from here on the answer is
                            * STATUS_PENDING */
    Status = IoCsqInsertIrpEx(&Extension->Csq, Irp, NULL, NULL);
    if (Status == STATUS_UNSUCCESSFUL) {
        StartIo(DeviceObject, Irp);
    } else if (!NT_SUCCESS(Status)) {
        Complete(Irp, Status, IO_NO_INCREMENT);
    }
    return STATUS_PENDING;
}

static NTSTATUS NTAPI Cleanup(PDEVICE_OBJECT DeviceObject, PIRP Irp) {
    PEXTENSION Extension = DeviceObject->DeviceExtension;
    PFILE_OBJECT File = IoGetCurrentIrpStackLocation(Irp)->FileObject;
    KIRQL Irql;
    PIRP Waiting;
    KeAcquireSpinLock(&Extension->Lock, &Irql);
    File->FsContext = File;
    KeReleaseSpinLock(&Extension->Lock, Irql);
    while ((Waiting = IoCsqRemoveNextIrp(&Extension->Csq, File)) != NULL) {
        Complete(Waiting, STATUS_CANCELLED, IO_NO_INCREMENT);
    }
    return Complete(Irp, STATUS_SUCCESS, IO_NO_INCREMENT);
}

static VOID NTAPI Unload(PDRIVER_OBJECT DriverObject) {
    KeFlushQueuedDpcs();
    IoDeleteDevice(DriverObject->DeviceObject);
}

NTSTATUS NTAPI DriverEntry(PDRIVER_OBJECT DriverObject, PUNICODE_STRING RegistryPath) {
    PDEVICE_OBJECT DeviceObject;
    PEXTENSION Extension;
    NTSTATUS Status = IoCreateDevice(DriverObject, sizeof(EXTENSION), NULL, FILE_DEVICE_UNKNOWN, 0,
                                     FALSE, &DeviceObject);
    UNREFERENCED_PARAMETER(RegistryPath);
    if (!NT_SUCCESS(Status)) {
        return Status;
    }
    DeviceObject->Flags |= DO_BUFFERED_IO;
    Extension = DeviceObject->DeviceExtension;
    Extension->Self = DeviceObject;
    KeInitializeSpinLock(&Extension->Lock);
    InitializeListHead(&Extension->Waiting);
    KeInitializeTimer(&Extension->Work);
    KeInitializeDpc(&Extension->Done, WorkDone, DeviceObject);
    IoCsqInitializeEx(&Extension->Csq, InsertOrStart, Remove, Peek, Lock, Unlock, Canceled);
    DriverObject->DriverUnload = Unload;
    DriverObject->MajorFunction[IRP_MJ_CREATE] = DriverObject->MajorFunction[IRP_MJ_CLOSE] = Open;
    DriverObject->MajorFunction[IRP_MJ_READ] = DriverObject->MajorFunction[IRP_MJ_WRITE] =
        ReadWrite;
    DriverObject->MajorFunction[IRP_MJ_CLEANUP] = Cleanup;
    return STATUS_SUCCESS;
}
