/* A driver in an unusual style: the IRPs wait in an array, the last first; the lock is two locks,
 * and the IRQL is kept beside them; each file object has a queue of its own, in memory of the pool;
 * reads are marked pending before they are queued. */
#include <ntddk.h>
#include <csq.h>

#ifndef WRONG
#define WRONG 0
#endif
#define TAG 'tolS'

enum { MOST = 8 };

typedef struct _SLOTS {
    IO_CSQ Queue;
    KSPIN_LOCK Outer;
    KSPIN_LOCK Inner;
    KIRQL Irql;
    BOOLEAN Closed;
    ULONG Count;
    PIRP Irps[MOST]; /* the last one is the first to be removed */
} SLOTS, *PSLOTS;

static PSLOTS OfQueue(PIO_CSQ Csq) {
    return CONTAINING_RECORD(Csq, SLOTS, Queue);
}

static PSLOTS OfIrp(PIRP Irp) {
    return IoGetCurrentIrpStackLocation(Irp)->FileObject->FsContext2;
}

static NTSTATUS Finish(PIRP Irp, NTSTATUS Status) {
    Irp->IoStatus.Status = Status;
    Irp->IoStatus.Information = 0;
    IoCompleteRequest(Irp, IO_NO_INCREMENT);
    return Status;
}

static ULONG IndexOf(PSLOTS Slots, PIRP Irp) {
    ULONG At = 0;
    while (At < Slots->Count && Slots->Irps[At] != Irp) {
        At++;
    }
    return At;
}

static NTSTATUS NTAPI InsertSlot(PIO_CSQ Csq, PIRP Irp, PVOID InsertContext) {
    PSLOTS Slots = OfQueue(Csq);
    UNREFERENCED_PARAMETER(InsertContext);
    if (Slots->Closed || Slots->Count == MOST) {
        return Slots->Closed ? STATUS_FILE_CLOSED : STATUS_INSUFFICIENT_RESOURCES;
    }
    Slots->Irps[Slots->Count++] = Irp;
    return STATUS_SUCCESS;
}

static VOID NTAPI RemoveSlot(PIO_CSQ Csq, PIRP Irp) {
    PSLOTS Slots = OfQueue(Csq);
    ULONG At = IndexOf(Slots, Irp);
#if WRONG == 1
    Slots->Irps[At] = Slots->Irps[--Slots->Count]; /* which changes the order */
#else
    for (Slots->Count--; At < Slots->Count; At++) {
        Slots->Irps[At] = Slots->Irps[At + 1];
    }
#endif
}

static PIRP NTAPI PeekSlot(PIO_CSQ Csq, PIRP Irp, PVOID PeekContext) {
    PSLOTS Slots = OfQueue(Csq);
    ULONG At = Irp != NULL ? IndexOf(Slots, Irp) : Slots->Count;
    UNREFERENCED_PARAMETER(PeekContext);
    return At > 0 ? Slots->Irps[At - 1] : NULL;
}

static VOID NTAPI LockSlots(PIO_CSQ Csq, PKIRQL Irql) {
    PSLOTS Slots = OfQueue(Csq);
    UNREFERENCED_PARAMETER(Irql);
    KIRQL Before = KeAcquireSpinLockRaiseToDpc(&Slots->Outer);
    KeAcquireSpinLockAtDpcLevel(&Slots->Inner);
    Slots->Irql = Before; /* not before the locks are taken: another thread's is there until then */
}

static VOID NTAPI UnlockSlots(PIO_CSQ Csq, KIRQL Irql) {
    PSLOTS Slots = OfQueue(Csq);
    KIRQL Before = Slots->Irql;
    UNREFERENCED_PARAMETER(Irql);
    KeReleaseSpinLockFromDpcLevel(&Slots->Inner);
    KeReleaseSpinLock(&Slots->Outer, Before);
}

static VOID NTAPI CompleteCanceled(PIO_CSQ Csq, PIRP Irp) {
    UNREFERENCED_PARAMETER(Csq);
    Finish(Irp, STATUS_CANCELLED);
}

static NTSTATUS NTAPI Create(PDEVICE_OBJECT DeviceObject, PIRP Irp) {
    PSLOTS Slots = ExAllocatePoolWithTag(NonPagedPool, sizeof(SLOTS), TAG);
    UNREFERENCED_PARAMETER(DeviceObject);
    if (Slots == NULL) {
        return Finish(Irp, STATUS_INSUFFICIENT_RESOURCES);
    }
    RtlZeroMemory(Slots, sizeof(SLOTS));
    KeInitializeSpinLock(&Slots->Outer);
    KeInitializeSpinLock(&Slots->Inner);
    IoCsqInitializeEx(&Slots->Queue, InsertSlot, RemoveSlot, PeekSlot, LockSlots, UnlockSlots,
                      CompleteCanceled);
    IoGetCurrentIrpStackLocation(Irp)->FileObject->FsContext2 = Slots;
    return Finish(Irp, STATUS_SUCCESS);
}

static NTSTATUS NTAPI Read(PDEVICE_OBJECT DeviceObject, PIRP Irp) {
    PSLOTS Slots = OfIrp(Irp);
    UNREFERENCED_PARAMETER(DeviceObject);
    IoMarkIrpPending(Irp);
    NTSTATUS Status = IoCsqInsertIrpEx(&Slots->Queue, Irp, NULL, NULL);
    if (!NT_SUCCESS(Status)) {
        Finish(Irp, Status); /* and pending all the same, as it was marked */
    }
#if WRONG == 2
    IoMarkIrpPending(Irp); /* once more, to be sure */
#endif
    return STATUS_PENDING;
}

static NTSTATUS NTAPI Write(PDEVICE_OBJECT DeviceObject, PIRP Irp) {
    PIRP Waiting = IoCsqRemoveNextIrp(&OfIrp(Irp)->Queue, NULL);
    UNREFERENCED_PARAMETER(DeviceObject);
    if (Waiting != NULL) {
        Finish(Waiting, STATUS_SUCCESS);
    }
    return Finish(Irp, STATUS_SUCCESS);
}

static NTSTATUS NTAPI Cleanup(PDEVICE_OBJECT DeviceObject, PIRP Irp) {
    PSLOTS Slots = OfIrp(Irp);
    PIRP Waiting;
    KIRQL Irql = PASSIVE_LEVEL;
    UNREFERENCED_PARAMETER(DeviceObject);
    LockSlots(&Slots->Queue, &Irql);
    Slots->Closed = TRUE;
    UnlockSlots(&Slots->Queue, Irql);
    while ((Waiting = IoCsqRemoveNextIrp(&Slots->Queue, NULL)) != NULL) {
        Finish(Waiting, STATUS_CANCELLED);
    }
    return Finish(Irp, STATUS_SUCCESS);
}

static NTSTATUS NTAPI Close(PDEVICE_OBJECT DeviceObject, PIRP Irp) {
    UNREFERENCED_PARAMETER(DeviceObject);
    ExFreePoolWithTag(OfIrp(Irp), TAG);
    return Finish(Irp, STATUS_SUCCESS);
}

static VOID NTAPI Unload(PDRIVER_OBJECT DriverObject) {
    IoDeleteDevice(DriverObject->DeviceObject);
}

DRIVER_INITIALIZE DriverEntry;
NTSTATUS NTAPI DriverEntry(PDRIVER_OBJECT DriverObject, PUNICODE_STRING RegistryPath) {
    PDEVICE_OBJECT DeviceObject;
    NTSTATUS Status;
    UNREFERENCED_PARAMETER(RegistryPath);
    DriverObject->DriverUnload = Unload;
    DriverObject->MajorFunction[IRP_MJ_CREATE] = Create;
    DriverObject->MajorFunction[IRP_MJ_CLOSE] = Close;
    DriverObject->MajorFunction[IRP_MJ_READ] = Read;
    DriverObject->MajorFunction[IRP_MJ_WRITE] = Write;
    DriverObject->MajorFunction[IRP_MJ_CLEANUP] = Cleanup;
    Status = IoCreateDevice(DriverObject, 0, NULL, FILE_DEVICE_UNKNOWN, 0, FALSE, &DeviceObject);
    if (NT_SUCCESS(Status)) {
        DeviceObject->Flags |= DO_BUFFERED_IO;
    }
    return Status;
}
