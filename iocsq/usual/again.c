/* A device with little room: a write that it has no room for goes back into the queue, in front,
 * until a timer's DPC makes room. Reads are of the neither kind, and end at once. */
#include <wdm.h>
#include <csq.h>

#ifndef WRONG
#define WRONG 0
#endif

#define ROOM 8
#define DRAIN_IN_MILLISECONDS 2

typedef struct _SINK {
    IO_CSQ Writes;
    LIST_ENTRY Queue; /* under Lock, with Room */
    KSPIN_LOCK Lock;
    ULONG Room;
    volatile LONG Draining; /* one thread at a time takes writes out */
    volatile LONG Asked;    /* while another did */
    KTIMER Timer;
    KDPC Dpc;
    ULONG64 Sunk;
} SINK, *PSINK;

DRIVER_INITIALIZE DriverEntry;

static PSINK SinkOf(PIO_CSQ Csq) {
    return CONTAINING_RECORD(Csq, SINK, Writes);
}

static NTSTATUS Finish(PIRP Irp, NTSTATUS Status, ULONG_PTR Information) {
    Irp->IoStatus.Status = Status;
    Irp->IoStatus.Information = Information;
    IoCompleteRequest(Irp, IO_DISK_INCREMENT);
    return Status;
}

/* The context: null for last, else in front. */
static NTSTATUS NTAPI Insert(PIO_CSQ Csq, PIRP Irp, PVOID InsertContext) {
    PSINK Sink = SinkOf(Csq);
    if (IoGetCurrentIrpStackLocation(Irp)->FileObject->FsContext2 != NULL) {
        return STATUS_FILE_CLOSED;
    }
    if (InsertContext != NULL) {
        InsertHeadList(&Sink->Queue, &Irp->Tail.Overlay.ListEntry);
    } else {
        InsertTailList(&Sink->Queue, &Irp->Tail.Overlay.ListEntry);
    }
    return STATUS_SUCCESS;
}

static VOID NTAPI Remove(PIO_CSQ Csq, PIRP Irp) {
    UNREFERENCED_PARAMETER(Csq);
    RemoveEntryList(&Irp->Tail.Overlay.ListEntry);
}

static PIRP NTAPI Peek(PIO_CSQ Csq, PIRP Irp, PVOID PeekContext) {
    PLIST_ENTRY Head = &SinkOf(Csq)->Queue,
                Entry = Irp ? Irp->Tail.Overlay.ListEntry.Flink : Head->Flink;
    for (; Entry != Head; Entry = Entry->Flink) {
        PIRP Next = CONTAINING_RECORD(Entry, IRP, Tail.Overlay.ListEntry);
        if (PeekContext == NULL ||
            PeekContext == (PVOID)IoGetCurrentIrpStackLocation(Next)->FileObject) {
            return Next;
        }
    }
    return NULL;
}

static VOID NTAPI Lock(PIO_CSQ Csq, PKIRQL Irql) {
    KeAcquireSpinLock(&SinkOf(Csq)->Lock, Irql);
}

static VOID NTAPI Unlock(PIO_CSQ Csq, KIRQL Irql) {
    KeReleaseSpinLock(&SinkOf(Csq)->Lock, Irql);
}

static VOID NTAPI Canceled(PIO_CSQ Csq, PIRP Irp) {
    UNREFERENCED_PARAMETER(Csq);
    Finish(Irp, STATUS_CANCELLED, 0);
}

/* ---- The device ---- */
static BOOLEAN TakesBytes(PSINK Sink, ULONG Length) {
    BOOLEAN Takes;
    KIRQL Irql;
    KeAcquireSpinLock(&Sink->Lock, &Irql);
    Takes = Length <= Sink->Room;
    if (Takes) {
        Sink->Room -= Length;
        Sink->Sunk += Length;
    }
    KeReleaseSpinLock(&Sink->Lock, Irql);
    return Takes;
}

static VOID PutBack(PSINK Sink, PIRP Irp) {
    NTSTATUS Status = IoCsqInsertIrpEx(&Sink->Writes, Irp, NULL, Sink);
    if (!NT_SUCCESS(Status)) {
        Finish(Irp, Status, 0);
    }
}

static VOID DrainAll(PSINK Sink) {
    PIRP Irp;
    while ((Irp = IoCsqRemoveNextIrp(&Sink->Writes, NULL)) != NULL) {
        ULONG Length = IoGetCurrentIrpStackLocation(Irp)->Parameters.Write.Length;
        if (!TakesBytes(Sink, Length)) {
            PutBack(Sink, Irp);
            break;
        }
        Finish(Irp, STATUS_SUCCESS, Length);
    }
}

static VOID Drain(PSINK Sink) {
    InterlockedExchange(&Sink->Asked, TRUE);
    while (InterlockedExchange(&Sink->Asked, FALSE) &&
           InterlockedCompareExchange(&Sink->Draining, TRUE, FALSE) == FALSE) {
        DrainAll(Sink);
        InterlockedExchange(&Sink->Draining, FALSE);
    }
}

static KDEFERRED_ROUTINE MakeRoom;
static VOID NTAPI MakeRoom(PKDPC Dpc, PVOID DeferredContext, PVOID SystemArgument1,
                           PVOID SystemArgument2) {
    PSINK Sink = DeferredContext;
    UNREFERENCED_PARAMETER(Dpc);
    UNREFERENCED_PARAMETER(SystemArgument1);
    UNREFERENCED_PARAMETER(SystemArgument2);
    KeAcquireSpinLockAtDpcLevel(&Sink->Lock);
    Sink->Room = ROOM;
    KeReleaseSpinLockFromDpcLevel(&Sink->Lock);
    Drain(Sink);
}

/* ---- Dispatch routines ---- */
static NTSTATUS NTAPI Open(PDEVICE_OBJECT DeviceObject, PIRP Irp) {
    UNREFERENCED_PARAMETER(DeviceObject);
    return Finish(Irp, STATUS_SUCCESS, 0);
}

static NTSTATUS NTAPI Read(PDEVICE_OBJECT DeviceObject, PIRP Irp) {
    UNREFERENCED_PARAMETER(DeviceObject);
    NT_ASSERT(Irp->AssociatedIrp.SystemBuffer == NULL && Irp->MdlAddress == NULL);
    return Finish(Irp, STATUS_END_OF_FILE, 0);
}

static NTSTATUS NTAPI Write(PDEVICE_OBJECT DeviceObject, PIRP Irp) {
    PSINK Sink = DeviceObject->DeviceExtension;
    NTSTATUS Status = IoCsqInsertIrpEx(&Sink->Writes, Irp, NULL, NULL);
    if (!NT_SUCCESS(Status)) {
        return Finish(Irp, Status, 0);
    }
    Drain(Sink);
    return STATUS_PENDING;
}

static NTSTATUS NTAPI Cleanup(PDEVICE_OBJECT DeviceObject, PIRP Irp) {
    PSINK Sink = DeviceObject->DeviceExtension;
    PFILE_OBJECT File = IoGetCurrentIrpStackLocation(Irp)->FileObject;
    KIRQL Irql;
    PIRP Waiting;
    KeAcquireSpinLock(&Sink->Lock, &Irql);
    File->FsContext2 = Sink;
    KeReleaseSpinLock(&Sink->Lock, Irql);
    while ((Waiting = IoCsqRemoveNextIrp(&Sink->Writes, File)) != NULL) {
        Finish(Waiting, STATUS_CANCELLED, 0);
    }
    return Finish(Irp, STATUS_SUCCESS, 0);
}

static VOID NTAPI Unload(PDRIVER_OBJECT DriverObject) {
    PSINK Sink = DriverObject->DeviceObject->DeviceExtension;
    KeCancelTimer(&Sink->Timer);
    KeFlushQueuedDpcs();
    IoDeleteDevice(DriverObject->DeviceObject);
}

NTSTATUS NTAPI DriverEntry(PDRIVER_OBJECT DriverObject, PUNICODE_STRING RegistryPath) {
    PDEVICE_OBJECT DeviceObject;
    PSINK Sink;
    LARGE_INTEGER First;
    NTSTATUS Status = IoCreateDevice(DriverObject, sizeof(SINK), NULL, FILE_DEVICE_UNKNOWN, 0,
                                     FALSE, &DeviceObject);
    UNREFERENCED_PARAMETER(RegistryPath);
    if (!NT_SUCCESS(Status)) {
        return Status;
    }
    Sink = DeviceObject->DeviceExtension;
    Sink->Room = ROOM;
    InitializeListHead(&Sink->Queue);
    KeInitializeSpinLock(&Sink->Lock);
    KeInitializeDpc(&Sink->Dpc, MakeRoom, Sink);
    KeInitializeTimerEx(&Sink->Timer, SynchronizationTimer);
    IoCsqInitializeEx(&Sink->Writes, Insert, Remove, Peek, Lock, Unlock, Canceled);
    First.HighPart = -1;
    First.LowPart = (ULONG)(-DRAIN_IN_MILLISECONDS * 10000);
    KeSetTimerEx(&Sink->Timer, First, DRAIN_IN_MILLISECONDS, &Sink->Dpc);
    DriverObject->DriverUnload = Unload;
    DriverObject->MajorFunction[IRP_MJ_CREATE] = DriverObject->MajorFunction[IRP_MJ_CLOSE] = Open;
    DriverObject->MajorFunction[IRP_MJ_READ] = Read;
    DriverObject->MajorFunction[IRP_MJ_WRITE] = Write;
    DriverObject->MajorFunction[IRP_MJ_CLEANUP] = Cleanup;
    return STATUS_SUCCESS;
}
