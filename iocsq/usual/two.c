/* Two queues: a read and a write of a file object wait for each other. Both queues have the same
 * callbacks and a lock each; a fast mutex keeps two threads from pairing the same ones. */
#include <ntddk.h>
#include <csq.h>

#ifndef WRONG
#define WRONG 0
#endif

#define TAG 'owtC'
enum { READS, WRITES, QUEUES };

typedef struct _CHANNEL_QUEUE {
    IO_CSQ Csq;
    LIST_ENTRY Irps;
    KSPIN_LOCK Lock;
    BOOLEAN Closed; /* under Lock: what comes later is refused */
} CHANNEL_QUEUE, *PCHANNEL_QUEUE;

/* Of a file object. */
typedef struct _CHANNEL {
    CHANNEL_QUEUE Queues[QUEUES];
    FAST_MUTEX Pairing;
    LONG References; /* the file object's, and each dispatch routine's that uses it */
} CHANNEL, *PCHANNEL;

DRIVER_INITIALIZE DriverEntry;

static PCHANNEL_QUEUE QueueOf(PIO_CSQ Csq) {
    return CONTAINING_RECORD(Csq, CHANNEL_QUEUE, Csq);
}

static PCHANNEL ChannelOf(PIRP Irp) {
    return IoGetCurrentIrpStackLocation(Irp)->FileObject->FsContext;
}

static NTSTATUS Finish(PIRP Irp, NTSTATUS Status, ULONG_PTR Information) {
    Irp->IoStatus.Status = Status;
    Irp->IoStatus.Information = Information;
    IoCompleteRequest(Irp, IO_NAMED_PIPE_INCREMENT);
    return Status;
}

static NTSTATUS NTAPI Insert(PIO_CSQ Csq, PIRP Irp, PVOID InsertContext) {
    UNREFERENCED_PARAMETER(InsertContext);
    if (QueueOf(Csq)->Closed) {
        return STATUS_PIPE_CLOSING;
    }
    InsertTailList(&QueueOf(Csq)->Irps, &Irp->Tail.Overlay.ListEntry);
    return STATUS_PENDING;
}

static VOID NTAPI Remove(PIO_CSQ Csq, PIRP Irp) {
    UNREFERENCED_PARAMETER(Csq);
    RemoveEntryList(&Irp->Tail.Overlay.ListEntry);
}

/* All are of one file object, so any context will do. */
static PIRP NTAPI Peek(PIO_CSQ Csq, PIRP Irp, PVOID PeekContext) {
    PLIST_ENTRY Entry = Irp ? Irp->Tail.Overlay.ListEntry.Flink : QueueOf(Csq)->Irps.Flink;
    UNREFERENCED_PARAMETER(PeekContext);
    return Entry == &QueueOf(Csq)->Irps ? NULL
                                        : CONTAINING_RECORD(Entry, IRP, Tail.Overlay.ListEntry);
}

static VOID NTAPI Lock(PIO_CSQ Csq, PKIRQL Irql) {
    KeAcquireSpinLock(&QueueOf(Csq)->Lock, Irql);
}

static VOID NTAPI Unlock(PIO_CSQ Csq, KIRQL Irql) {
    KeReleaseSpinLock(&QueueOf(Csq)->Lock, Irql);
}

static VOID NTAPI Canceled(PIO_CSQ Csq, PIRP Irp) {
    UNREFERENCED_PARAMETER(Csq);
    Finish(Irp, STATUS_CANCELLED, 0);
}

/* ---- Pairs ---- */
static VOID Transfer(PIRP Read, PIRP Write) {
    ULONG Room = IoGetCurrentIrpStackLocation(Read)->Parameters.Read.Length;
    ULONG Length = IoGetCurrentIrpStackLocation(Write)->Parameters.Write.Length;
    ULONG Count = min(Room, Length);
    RtlCopyMemory(MmGetSystemAddressForMdlSafe(Read->MdlAddress, NormalPagePriority),
                  MmGetSystemAddressForMdlSafe(Write->MdlAddress, NormalPagePriority), Count);
    Finish(Read, STATUS_SUCCESS, Count);
    Finish(Write, STATUS_SUCCESS, Count);
}

/* A read is put back if there is no write for it. */
static VOID Pair(PCHANNEL Channel) {
    PIRP Read, Write;
    ExAcquireFastMutex(&Channel->Pairing);
    while ((Read = IoCsqRemoveNextIrp(&Channel->Queues[READS].Csq, NULL)) != NULL) {
        NTSTATUS Status;
        Write = IoCsqRemoveNextIrp(&Channel->Queues[WRITES].Csq, NULL);
        if (Write != NULL) {
            Transfer(Read, Write);
            continue;
        }
        Status = IoCsqInsertIrpEx(&Channel->Queues[READS].Csq, Read, NULL, NULL);
        if (!NT_SUCCESS(Status)) {
            Finish(Read, Status, 0);
        }
        break;
    }
    ExReleaseFastMutex(&Channel->Pairing);
}

/* A read may wait while no write does, and a write while no read does. */
BOOLEAN MayWait(PIRP Irp);
BOOLEAN MayWait(PIRP Irp) {
    int Other = IoGetCurrentIrpStackLocation(Irp)->MajorFunction == IRP_MJ_READ ? WRITES : READS;
    return IsListEmpty(&ChannelOf(Irp)->Queues[Other].Irps);
}

static VOID Dereference(PCHANNEL Channel) {
    if (InterlockedDecrement(&Channel->References) == 0) {
        ExFreePoolWithTag(Channel, TAG);
    }
}

static NTSTATUS Enqueue(PIRP Irp, int Which) {
    PCHANNEL Channel = ChannelOf(Irp);
    NTSTATUS Status;
    InterlockedIncrement(&Channel->References); /* the request may be completed, and the file object
                                                 * closed */
    Status = IoCsqInsertIrpEx(&Channel->Queues[Which].Csq, Irp, NULL, NULL);
    if (NT_SUCCESS(Status)) {
        Pair(Channel);
    } else {
        Finish(Irp, Status, 0);
    }
    Dereference(Channel);
    return Status;
}

/* ---- Dispatch routines ---- */
static VOID InitializeQueue(PCHANNEL_QUEUE Queue) {
    InitializeListHead(&Queue->Irps);
#if WRONG != 1
    KeInitializeSpinLock(&Queue->Lock);
#endif
    Queue->Closed = FALSE;
    IoCsqInitializeEx(&Queue->Csq, Insert, Remove, Peek, Lock, Unlock, Canceled);
}

static NTSTATUS NTAPI Create(PDEVICE_OBJECT DeviceObject, PIRP Irp) {
    PCHANNEL Channel = ExAllocatePoolWithTag(NonPagedPoolNx, sizeof(CHANNEL), TAG);
    UNREFERENCED_PARAMETER(DeviceObject);
    if (Channel == NULL) {
        return Finish(Irp, STATUS_NO_MEMORY, 0);
    }
    Channel->References = 1;
    InitializeQueue(&Channel->Queues[READS]);
    InitializeQueue(&Channel->Queues[WRITES]);
#if WRONG != 2
    ExInitializeFastMutex(&Channel->Pairing);
#endif
    IoGetCurrentIrpStackLocation(Irp)->FileObject->FsContext = Channel;
    return Finish(Irp, STATUS_SUCCESS, 0);
}

static NTSTATUS NTAPI Read(PDEVICE_OBJECT DeviceObject, PIRP Irp) {
    UNREFERENCED_PARAMETER(DeviceObject);
    return Enqueue(Irp, READS);
}

static NTSTATUS NTAPI Write(PDEVICE_OBJECT DeviceObject, PIRP Irp) {
    UNREFERENCED_PARAMETER(DeviceObject);
    return Enqueue(Irp, WRITES);
}

static VOID Close(PCHANNEL_QUEUE Queue) {
    KIRQL Irql;
    PIRP Irp;
    KeAcquireSpinLock(&Queue->Lock, &Irql);
    Queue->Closed = TRUE;
    KeReleaseSpinLock(&Queue->Lock, Irql);
    while ((Irp = IoCsqRemoveNextIrp(&Queue->Csq, NULL)) != NULL) {
        Finish(Irp, STATUS_CANCELLED, 0);
    }
}

/* One after the other under the mutex, so that no pair is between the two. */
static NTSTATUS NTAPI Cleanup(PDEVICE_OBJECT DeviceObject, PIRP Irp) {
    PCHANNEL Channel = ChannelOf(Irp);
    UNREFERENCED_PARAMETER(DeviceObject);
    ExAcquireFastMutex(&Channel->Pairing);
    Close(&Channel->Queues[READS]);
    Close(&Channel->Queues[WRITES]);
    ExReleaseFastMutex(&Channel->Pairing);
    return Finish(Irp, STATUS_SUCCESS, 0);
}

static NTSTATUS NTAPI CloseFile(PDEVICE_OBJECT DeviceObject, PIRP Irp) {
    PCHANNEL Channel = ChannelOf(Irp);
    UNREFERENCED_PARAMETER(DeviceObject);
    Finish(Irp, STATUS_SUCCESS, 0);
    Dereference(Channel);
    return STATUS_SUCCESS;
}

static VOID NTAPI Unload(PDRIVER_OBJECT DriverObject) {
    IoDeleteDevice(DriverObject->DeviceObject);
}

NTSTATUS NTAPI DriverEntry(PDRIVER_OBJECT DriverObject, PUNICODE_STRING RegistryPath) {
    static const struct {
        UCHAR Major;
        PDRIVER_DISPATCH Routine;
    } Routines[] = { { IRP_MJ_CREATE, Create },
                     { IRP_MJ_READ, Read },
                     { IRP_MJ_WRITE, Write },
                     { IRP_MJ_CLEANUP, Cleanup },
                     { IRP_MJ_CLOSE, CloseFile } };
    PDEVICE_OBJECT DeviceObject;
    ULONG At;
    NTSTATUS Status =
        IoCreateDevice(DriverObject, 0, NULL, FILE_DEVICE_NAMED_PIPE, 0, FALSE, &DeviceObject);
    UNREFERENCED_PARAMETER(RegistryPath);
    if (!NT_SUCCESS(Status)) {
        return Status;
    }
    DeviceObject->Flags |= DO_DIRECT_IO;
    for (At = 0; At < RTL_NUMBER_OF(Routines); At++) {
        DriverObject->MajorFunction[Routines[At].Major] = Routines[At].Routine;
    }
    DriverObject->DriverUnload = Unload;
    return STATUS_SUCCESS;
}
