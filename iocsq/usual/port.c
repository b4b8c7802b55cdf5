/* A serial port in loop-back: what is written is received, and a read gets it, or gives up at its
 * deadline, which a periodic timer's DPC looks for. Requests' own places (DriverContext) keep the
 * deadlines. */
#include <ntddk.h>
#include <csq.h>

#ifndef WRONG
#define WRONG 0
#endif

#define RECEIVE_SIZE 32
#define TIMEOUT_IN_MILLISECONDS 20
#define POLL_IN_MILLISECONDS 4

typedef struct _PORT {
    KSPIN_LOCK Lock; /* of all but the timer and the DPC */
    IO_CSQ Reads;
    LIST_ENTRY ReadList;
    UCHAR Received[RECEIVE_SIZE];
    ULONG Count;
    KTIMER Timer;
    KDPC TimerDpc;
    ULONG_PTR Late; /* how many reads gave up */
} PORT, *PPORT;

DRIVER_INITIALIZE DriverEntry;

static NTSTATUS SerialComplete(PIRP Irp, NTSTATUS Status, ULONG_PTR Information) {
    Irp->IoStatus.Status = Status;
    Irp->IoStatus.Information = Information;
    IoCompleteRequest(Irp, IO_SERIAL_INCREMENT);
    return Status;
}

static PPORT PortOf(PIO_CSQ Csq) {
    return CONTAINING_RECORD(Csq, PORT, Reads);
}

static ULONG_PTR Deadline(PIRP Irp) {
    return (ULONG_PTR)Irp->Tail.Overlay.DriverContext[0];
}

static NTSTATUS NTAPI SerialInsert(PIO_CSQ Csq, PIRP Irp, PVOID InsertContext) {
    UNREFERENCED_PARAMETER(InsertContext);
    if (IoGetCurrentIrpStackLocation(Irp)->FileObject->FsContext != NULL) {
        return STATUS_FILE_CLOSED;
    }
    Irp->Tail.Overlay.DriverContext[0] =
        (PVOID)(ULONG_PTR)(KeQueryInterruptTime() + TIMEOUT_IN_MILLISECONDS * 10000);
    InsertTailList(&PortOf(Csq)->ReadList, &Irp->Tail.Overlay.ListEntry);
    return STATUS_PENDING;
}

static VOID NTAPI SerialRemove(PIO_CSQ Csq, PIRP Irp) {
    UNREFERENCED_PARAMETER(Csq);
    RemoveEntryList(&Irp->Tail.Overlay.ListEntry);
}

/* The context: null for any, a file object, or the port itself for those whose deadline is over. */
BOOLEAN SerialIsWanted(PIRP Irp, PVOID PeekContext);
BOOLEAN SerialIsWanted(PIRP Irp, PVOID PeekContext) {
    PIO_STACK_LOCATION Stack = IoGetCurrentIrpStackLocation(Irp);
    if (PeekContext == Stack->DeviceObject->DeviceExtension) {
        return Deadline(Irp) <= KeQueryInterruptTime();
    }
    return PeekContext == NULL || PeekContext == (PVOID)Stack->FileObject;
}

static PIRP NTAPI SerialPeek(PIO_CSQ Csq, PIRP Irp, PVOID PeekContext) {
    PLIST_ENTRY Entry = Irp ? &Irp->Tail.Overlay.ListEntry : &PortOf(Csq)->ReadList;
    while ((Entry = Entry->Flink) != &PortOf(Csq)->ReadList) {
        PIRP Next = CONTAINING_RECORD(Entry, IRP, Tail.Overlay.ListEntry);
        if (SerialIsWanted(Next, PeekContext)) {
            return Next;
        }
    }
    return NULL;
}

static VOID NTAPI SerialLock(PIO_CSQ Csq, PKIRQL Irql) {
    *Irql = KeAcquireSpinLockRaiseToDpc(&PortOf(Csq)->Lock);
}

static VOID NTAPI SerialUnlock(PIO_CSQ Csq, KIRQL Irql) {
    KeReleaseSpinLock(&PortOf(Csq)->Lock, Irql);
}

static VOID NTAPI SerialCanceled(PIO_CSQ Csq, PIRP Irp) {
    UNREFERENCED_PARAMETER(Csq);
    SerialComplete(Irp, STATUS_CANCELLED, 0);
}

/* ---- What is received: under the lock at DISPATCH_LEVEL ---- */
static ULONG TakeReceived(PPORT Port, PUCHAR Buffer, ULONG Length) {
    KLOCK_QUEUE_HANDLE Handle;
    ULONG Taken;
    KeAcquireInStackQueuedSpinLock(&Port->Lock, &Handle);
    Taken = min(Length, Port->Count);
    RtlCopyMemory(Buffer, Port->Received, Taken);
    Port->Count -= Taken;
    RtlMoveMemory(Port->Received, Port->Received + Taken, Port->Count);
    KeReleaseInStackQueuedSpinLock(&Handle);
    return Taken;
}

static BOOLEAN HasReceived(PPORT Port) {
    KIRQL Irql;
    BOOLEAN Has;
    KeAcquireSpinLock(&Port->Lock, &Irql);
    Has = Port->Count > 0;
    KeReleaseSpinLock(&Port->Lock, Irql);
    return Has;
}

static VOID SatisfyReads(PPORT Port) {
    PIRP Irp;
    while (HasReceived(Port) && (Irp = IoCsqRemoveNextIrp(&Port->Reads, NULL)) != NULL) {
        ULONG Length = IoGetCurrentIrpStackLocation(Irp)->Parameters.Read.Length;
        SerialComplete(Irp, STATUS_SUCCESS,
                       TakeReceived(Port, Irp->AssociatedIrp.SystemBuffer, Length));
    }
}

static KDEFERRED_ROUTINE SerialTick;
static VOID NTAPI SerialTick(PKDPC Dpc, PVOID DeferredContext, PVOID SystemArgument1,
                             PVOID SystemArgument2) {
    PPORT Port = DeferredContext;
    KLOCK_QUEUE_HANDLE Handle;
    PIRP Irp;
    UNREFERENCED_PARAMETER(Dpc);
    UNREFERENCED_PARAMETER(SystemArgument1);
    UNREFERENCED_PARAMETER(SystemArgument2);
    while ((Irp = IoCsqRemoveNextIrp(&Port->Reads, Port)) != NULL) {
        KeAcquireInStackQueuedSpinLockAtDpcLevel(&Port->Lock, &Handle);
        Port->Late++;
#if WRONG == 1
        KeLowerIrql(PASSIVE_LEVEL);
#endif
        KeReleaseInStackQueuedSpinLockFromDpcLevel(&Handle);
        SerialComplete(Irp, STATUS_TIMEOUT, 0);
    }
}

/* ---- Dispatch routines ---- */
static NTSTATUS NTAPI SerialOpen(PDEVICE_OBJECT DeviceObject, PIRP Irp) {
    UNREFERENCED_PARAMETER(DeviceObject);
    return SerialComplete(Irp, STATUS_SUCCESS, 0);
}

static NTSTATUS NTAPI SerialRead(PDEVICE_OBJECT DeviceObject, PIRP Irp) {
    PPORT Port = DeviceObject->DeviceExtension;
    NTSTATUS Status;
#if WRONG == 3
    PAGED_CODE(); /* where a driver above sends at DISPATCH_LEVEL */
#endif
    Status = IoCsqInsertIrpEx(&Port->Reads, Irp, NULL, NULL);
    if (!NT_SUCCESS(Status)) {
        return SerialComplete(Irp, Status, 0);
    }
    SatisfyReads(Port);
    return STATUS_PENDING;
}

static NTSTATUS NTAPI SerialWrite(PDEVICE_OBJECT DeviceObject, PIRP Irp) {
    PPORT Port = DeviceObject->DeviceExtension;
    ULONG Length = IoGetCurrentIrpStackLocation(Irp)->Parameters.Write.Length, Room;
    KIRQL Irql;
    KeAcquireSpinLock(&Port->Lock, &Irql);
    Room = min(Length, RECEIVE_SIZE - Port->Count);
    RtlCopyMemory(Port->Received + Port->Count, Irp->AssociatedIrp.SystemBuffer, Room);
    Port->Count += Room;
    KeReleaseSpinLock(&Port->Lock, Irql);
    SatisfyReads(Port);
    return SerialComplete(Irp, Room < Length ? STATUS_DEVICE_BUSY : STATUS_SUCCESS, Room);
}

static NTSTATUS NTAPI SerialCleanup(PDEVICE_OBJECT DeviceObject, PIRP Irp) {
    PPORT Port = DeviceObject->DeviceExtension;
    PFILE_OBJECT File = IoGetCurrentIrpStackLocation(Irp)->FileObject;
    KIRQL Irql;
    PIRP Read;
    KeAcquireSpinLock(&Port->Lock, &Irql);
    File->FsContext = Port;
    KeReleaseSpinLock(&Port->Lock, Irql);
    while ((Read = IoCsqRemoveNextIrp(&Port->Reads, File)) != NULL) {
        SerialComplete(Read, STATUS_CANCELLED, 0);
    }
    return SerialComplete(Irp, STATUS_SUCCESS, 0);
}

static VOID NTAPI SerialUnload(PDRIVER_OBJECT DriverObject) {
    PPORT Port = DriverObject->DeviceObject->DeviceExtension;
    KeCancelTimer(&Port->Timer);
    KeFlushQueuedDpcs();
    IoDeleteDevice(DriverObject->DeviceObject);
}

static VOID StartPolling(PPORT Port) {
    LARGE_INTEGER First;
    KeQuerySystemTime(&First);
    First.QuadPart += POLL_IN_MILLISECONDS * 10000; /* an absolute time */
    if (WRONG != 2) {
        KeInitializeDpc(&Port->TimerDpc, SerialTick, Port);
    }
    KeInitializeTimer(&Port->Timer);
    KeSetTimerEx(&Port->Timer, First, POLL_IN_MILLISECONDS, &Port->TimerDpc);
}

NTSTATUS NTAPI DriverEntry(PDRIVER_OBJECT DriverObject, PUNICODE_STRING RegistryPath) {
    DECLARE_CONST_UNICODE_STRING(Name, L"\\Device\\LoopBack0");
    PDEVICE_OBJECT DeviceObject;
    PPORT Port;
    NTSTATUS Status =
        IoCreateDevice(DriverObject, sizeof(PORT), (PUNICODE_STRING)(ULONG_PTR)&Name,
                       FILE_DEVICE_SERIAL_PORT, FILE_DEVICE_SECURE_OPEN, FALSE, &DeviceObject);
    UNREFERENCED_PARAMETER(RegistryPath);
    if (!NT_SUCCESS(Status)) {
        return Status;
    }
    DeviceObject->Flags |= DO_BUFFERED_IO;
    Port = DeviceObject->DeviceExtension;
    KeInitializeSpinLock(&Port->Lock);
    InitializeListHead(&Port->ReadList);
    IoCsqInitializeEx(&Port->Reads, SerialInsert, SerialRemove, SerialPeek, SerialLock,
                      SerialUnlock, SerialCanceled);
    StartPolling(Port);
    DriverObject->DriverUnload = SerialUnload;
    DriverObject->MajorFunction[IRP_MJ_CREATE] = SerialOpen;
    DriverObject->MajorFunction[IRP_MJ_CLOSE] = SerialOpen;
    DriverObject->MajorFunction[IRP_MJ_READ] = SerialRead;
    DriverObject->MajorFunction[IRP_MJ_WRITE] = SerialWrite;
    DriverObject->MajorFunction[IRP_MJ_CLEANUP] = SerialCleanup;
    return STATUS_SUCCESS;
}
