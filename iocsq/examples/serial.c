/*
 * A serial port whose transmitter is wired to its receiver: what is written comes back to be read.
 * A write waits until the transmitter has sent it, which it does once the receiver has room: until
 * then the write is put back in front of the others. Reads wait until they are full, or until their
 * time is over:
 *
 * - the interval: no byte came for so long after the last one. The oldest read is completed with
 *   what there is.
 * - the total time: a constant, and so much for each byte that was asked for
 *   (ReadTotalTimeoutConstant and ReadTotalTimeoutMultiplier of a real port). The read is completed
 *   with STATUS_TIMEOUT.
 *
 * The clock is a timer, and a DPC does what an interrupt's DPC would. So IRPs are removed at
 * DISPATCH_LEVEL by the DPC, and by dispatch routines and cancels at any time.
 */
#include "irp_queue.h"

enum { ROOM = 4, INTERVAL = 2, TOTAL_CONSTANT = 1, TOTAL_MULTIPLIER = 2 }; /* bytes; ticks */

typedef struct _EXTENSION {
    KSPIN_LOCK Lock; /* of the lists of both queues, of what follows them to LastByte, and of each
                      * FsContext */
    IRP_QUEUE Reads;
    IRP_QUEUE Writes;
    UCHAR Received[ROOM];
    ULONG Count;    /* of bytes in Received; only Tick changes it */
    ULONG Now;      /* ticks; it wraps round, so times are compared by their difference */
    ULONG LastByte; /* when it came */
    LONG Ticking;   /* 1: Tick runs; by interlocked calls */
    KTIMER Timer;
    KDPC Dpc;
} EXTENSION, *PEXTENSION;

static PEXTENSION PortOf(PIRP Irp) {
    return IoGetCurrentIrpStackLocation(Irp)->DeviceObject->DeviceExtension;
}

static ULONG LengthOf(PIRP Irp) {
    /* A write's stands in the same place. */
    return IoGetCurrentIrpStackLocation(Irp)->Parameters.Read.Length;
}

/* ---- What the queues ask, under the lock ---- */
/* Refuses once the cleanup of the file object has begun. Notes when an IRP's time is over, which
 * only reads are asked: DriverContext[0] to [2] are the driver's while it has the IRP, the
 * framework uses [3]. */
static NTSTATUS Admit(PIRP Irp) {
    ULONG Length = LengthOf(Irp) < ROOM ? LengthOf(Irp) : ROOM; /* for more bytes there is no more
                                                                 * time */
    ULONG Deadline = PortOf(Irp)->Now + TOTAL_CONSTANT + TOTAL_MULTIPLIER * Length;
    Irp->Tail.Overlay.DriverContext[0] = (PVOID)(ULONG_PTR)Deadline;
    return FileOf(Irp)->FsContext == NULL ? STATUS_PENDING : STATUS_FILE_CLOSED;
}

static BOOLEAN IsExpired(PIRP Read) {
    ULONG Deadline = (ULONG)(ULONG_PTR)Read->Tail.Overlay.DriverContext[0];
    return (LONG)(PortOf(Read)->Now - Deadline) >= 0;
}

/* Bytes belong to the oldest read: it is served once they are as many as it asked for, or no more
 * come. */
static BOOLEAN IsServed(PIRP Read) {
    PEXTENSION Port = PortOf(Read);
    return Read->Tail.Overlay.ListEntry.Blink == &Port->Reads.Irps && Port->Count > 0 &&
           (Port->Count >= LengthOf(Read) || Port->Now - Port->LastByte >= INTERVAL);
}

/* Peek contexts: the port (reads whose time is over), Received (the read that is served), a file
 * object, null (any). */
BOOLEAN IsWanted(PIRP Irp, PVOID PeekContext) {
    if (PeekContext == PortOf(Irp)) {
        return IsExpired(Irp);
    }
    if (PeekContext == PortOf(Irp)->Received) {
        return IsServed(Irp);
    }
    return PeekContext == NULL || PeekContext == FileOf(Irp);
}

/* A test asks this, where nothing else happens: whether an IRP may wait on. A write may, for which
 * the receiver has no room, or before which another one waits so; a read's time is over some
 * time. */
BOOLEAN MayWait(PIRP Irp);
BOOLEAN MayWait(PIRP Irp) {
    PEXTENSION Port = PortOf(Irp);
    PLIST_ENTRY First = Port->Writes.Irps.Flink;
    PIRP Write =
        First == &Port->Writes.Irps ? Irp : CONTAINING_RECORD(First, IRP, Tail.Overlay.ListEntry);
    ULONG Length = LengthOf(Write) < ROOM ? LengthOf(Write) : ROOM;
    return IoGetCurrentIrpStackLocation(Irp)->MajorFunction == IRP_MJ_WRITE &&
           Length > ROOM - Port->Count;
}

/* ---- The clock: transmitter, receiver, and reads whose time is over ---- */
/* Sends a write's bytes to the receiver, of a long one as many as it has room for when it is empty.
 * FALSE: there is no room for them now, and none was sent. */
static BOOLEAN Send(PEXTENSION Port, PIRP Write) {
    ULONG Length = LengthOf(Write) < ROOM ? LengthOf(Write) : ROOM;
    BOOLEAN HasRoom;
    KIRQL Irql;
    KeAcquireSpinLock(&Port->Lock, &Irql);
    HasRoom = Length <= ROOM - Port->Count;
    if (HasRoom) {
        RtlCopyMemory(&Port->Received[Port->Count], Write->AssociatedIrp.SystemBuffer, Length);
        Port->Count += Length;
        Port->LastByte = Port->Now;
    }
    KeReleaseSpinLock(&Port->Lock, Irql);
    if (HasRoom) {
        Finish(Write, STATUS_SUCCESS, Length);
    }
    return HasRoom;
}

static VOID Receive(PEXTENSION Port, PIRP Read) {
    ULONG Length;
    KIRQL Irql;
    KeAcquireSpinLock(&Port->Lock, &Irql);
    Length = Port->Count < LengthOf(Read) ? Port->Count : LengthOf(Read);
    RtlCopyMemory(Read->AssociatedIrp.SystemBuffer, Port->Received, Length);
    Port->Count -= Length;
    RtlMoveMemory(Port->Received, &Port->Received[Length], Port->Count);
    KeReleaseSpinLock(&Port->Lock, Irql);
    Finish(Read, STATUS_SUCCESS, Length);
}

/* The DPC may be queued again, and run on another processor, while it runs. That one only counts
 * the tick: so a write's bytes stand together, and Count is still what IsServed saw when Receive
 * takes the bytes. */
static VOID NTAPI Tick(PKDPC Dpc, PVOID DeferredContext, PVOID SystemArgument1,
                       PVOID SystemArgument2) {
    PEXTENSION Port = DeferredContext;
    PIRP Irp;
    UNREFERENCED_PARAMETER(Dpc);
    UNREFERENCED_PARAMETER(SystemArgument1);
    UNREFERENCED_PARAMETER(SystemArgument2);
    KeAcquireSpinLockAtDpcLevel(&Port->Lock);
    Port->Now++;
    KeReleaseSpinLockFromDpcLevel(&Port->Lock);
    if (InterlockedExchange(&Port->Ticking, 1) != 0) {
        return;
    }
    Irp = IoCsqRemoveNextIrp(&Port->Writes.Csq, NULL); /* one write each tick */
    if (Irp != NULL && !Send(Port, Irp)) {
        Enqueue(&Port->Writes, Irp, Port); /* in front; a cancel that came meanwhile is found by
                                            * this insert */
    }
    while ((Irp = IoCsqRemoveNextIrp(&Port->Reads.Csq, Port->Received)) != NULL) {
        Receive(Port, Irp);
    }
    CompleteAll(&Port->Reads, Port, STATUS_TIMEOUT);
    InterlockedExchange(&Port->Ticking, 0);
}

/* ---- The dispatch routines ---- */
static NTSTATUS NTAPI DispatchOpen(PDEVICE_OBJECT DeviceObject, PIRP Irp) {
    UNREFERENCED_PARAMETER(DeviceObject);
    return Finish(Irp, STATUS_SUCCESS, 0);
}

static NTSTATUS NTAPI DispatchReadWrite(PDEVICE_OBJECT DeviceObject, PIRP Irp) {
    PEXTENSION Port = DeviceObject->DeviceExtension;
    BOOLEAN Reads = IoGetCurrentIrpStackLocation(Irp)->MajorFunction == IRP_MJ_READ;
    return Enqueue(Reads ? &Port->Reads : &Port->Writes, Irp, NULL);
}

/* The last handle to a file object is closed: what waits for it is cancelled. */
static NTSTATUS NTAPI DispatchCleanup(PDEVICE_OBJECT DeviceObject, PIRP Irp) {
    PEXTENSION Port = DeviceObject->DeviceExtension;
    KIRQL Irql;
    KeAcquireSpinLock(&Port->Lock, &Irql);
    FileOf(Irp)->FsContext = Port; /* from now on nothing of it is queued, and then the queues are
                                    * emptied */
    KeReleaseSpinLock(&Port->Lock, Irql);
    CompleteAll(&Port->Reads, FileOf(Irp), STATUS_CANCELLED);
    CompleteAll(&Port->Writes, FileOf(Irp), STATUS_CANCELLED);
    return Finish(Irp, STATUS_SUCCESS, 0);
}

/* The timer first, so that no DPC is queued any more, and then those that were. */
static VOID NTAPI Unload(PDRIVER_OBJECT DriverObject) {
    PEXTENSION Port = DriverObject->DeviceObject->DeviceExtension;
    KeCancelTimer(&Port->Timer);
    KeFlushQueuedDpcs();
    IoDeleteDevice(DriverObject->DeviceObject);
}

DRIVER_INITIALIZE DriverEntry;
NTSTATUS NTAPI DriverEntry(PDRIVER_OBJECT DriverObject, PUNICODE_STRING RegistryPath) {
    LARGE_INTEGER First = { .QuadPart = -10000 }; /* in a millisecond */
    PDEVICE_OBJECT Device;
    PEXTENSION Port;
    NTSTATUS Status = IoCreateDevice(DriverObject, sizeof(EXTENSION), NULL, FILE_DEVICE_UNKNOWN, 0,
                                     FALSE, &Device);
    UNREFERENCED_PARAMETER(RegistryPath);
    if (!NT_SUCCESS(Status)) {
        return Status;
    }
    Device->Flags |= DO_BUFFERED_IO; /* else SystemBuffer is null */
    Port = Device->DeviceExtension; /* which IoCreateDevice fills with zeros */
    KeInitializeSpinLock(&Port->Lock);
    InitializeQueue(&Port->Reads, &Port->Lock);
    InitializeQueue(&Port->Writes, &Port->Lock);
    KeInitializeDpc(&Port->Dpc, Tick, Port);
    KeInitializeTimerEx(&Port->Timer, SynchronizationTimer);
    DriverObject->DriverUnload = Unload;
    DriverObject->MajorFunction[IRP_MJ_CREATE] = DispatchOpen;
    DriverObject->MajorFunction[IRP_MJ_CLOSE] = DispatchOpen;
    DriverObject->MajorFunction[IRP_MJ_READ] = DispatchReadWrite;
    DriverObject->MajorFunction[IRP_MJ_WRITE] = DispatchReadWrite;
    DriverObject->MajorFunction[IRP_MJ_CLEANUP] = DispatchCleanup;
    KeSetTimerEx(&Port->Timer, First, 1, &Port->Dpc); /* and then each millisecond */
    Device->Flags &= ~(ULONG)DO_DEVICE_INITIALIZING;
    return STATUS_SUCCESS;
}
