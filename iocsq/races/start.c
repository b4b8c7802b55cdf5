/* Reads wait in a cancel-safe queue. One at a time is on the device, which is started by hand, and
 * whose DPC ends it. Wrong in these ways, each of which the lock or the order of the right one
 * forbids; from 50 on it is right again, by other means:
 *
 *     1   two threads may start the device, since they look at it without the lock
 *     2   a write looks at the queue's list without the lock
 *     3   Unload doesn't wait for the DPC
 *     4   the same, and the DPC counts after it has completed the request
 *     5   a read is looked at after it went into the queue
 *     6   the status of a request is written once more after its completion
 *     7   the DPC looks at the queue's list without the lock
 *     8   each of two places that count has another lock
 *     50  as 2, on purpose: it is only a hint
 *     51  the DPC counts by an interlocked call, before it completes the request
 */
#include "device.h"

typedef struct _EXTENSION {
    WAITING Reads;
    KSPIN_LOCK StartLock;
    PIRP Current; /* under StartLock */
    KDPC Dpc;
    LONG Served;
    ULONG Counted; /* under the lock of Reads */
} EXTENSION, *PEXTENSION;

DRIVER_INITIALIZE DriverEntry;
static DRIVER_DISPATCH Read, Write;
static DRIVER_UNLOAD Unload;
static KDEFERRED_ROUTINE End;

static PIRP TakeNext(PEXTENSION Extension) {
    PIRP Next = NULL;
    if (Extension->Current == NULL) {
        Next = IoCsqRemoveNextIrp(&Extension->Reads.Queue, NULL);
        if (Next != NULL) {
            Extension->Current = Next;
        }
    }
    return Next;
}

static VOID StartNext(PEXTENSION Extension) {
    PIRP Next;
    KIRQL Irql;
#if WRONG == 1
    UNREFERENCED_PARAMETER(Irql);
    Next = TakeNext(Extension);
#else
    KeAcquireSpinLock(&Extension->StartLock, &Irql);
    Next = TakeNext(Extension);
    KeReleaseSpinLock(&Extension->StartLock, Irql);
#endif
    if (Next != NULL) {
        KeInsertQueueDpc(&Extension->Dpc, NULL, NULL); /* the device interrupts at once */
    }
}

static PIRP TakeCurrent(PEXTENSION Extension) {
    PIRP Done;
    KeAcquireSpinLockAtDpcLevel(&Extension->StartLock);
    Done = Extension->Current;
    Extension->Current = NULL;
    KeReleaseSpinLockFromDpcLevel(&Extension->StartLock);
    return Done;
}

static VOID Count(PEXTENSION Extension, PKSPIN_LOCK Lock) {
    KIRQL Irql;
    KeAcquireSpinLock(Lock, &Irql);
    Extension->Counted++;
    KeReleaseSpinLock(Lock, Irql);
}

static VOID NTAPI End(PKDPC Dpc, PVOID Context, PVOID First, PVOID Second) {
    PEXTENSION Extension = Context;
    PIRP Done = TakeCurrent(Extension);
    UNREFERENCED_PARAMETER(Dpc);
    UNREFERENCED_PARAMETER(First);
    UNREFERENCED_PARAMETER(Second);
#if WRONG == 7
    if (IsListEmpty(&Extension->Reads.Irps)) {
        Extension->Served = 0;
    }
#endif
    StartNext(Extension);
    Count(Extension, &Extension->Reads.Lock);
    if (Done == NULL) {
        return;
    }
#if WRONG == 51
    InterlockedIncrement(&Extension->Served);
#endif
    Finish(Done, STATUS_SUCCESS, 0);
#if WRONG == 4
    Extension->Served++; /* the device may be gone */
#elif WRONG == 6
    Done->IoStatus.Status = STATUS_SUCCESS;
#endif
}

static NTSTATUS NTAPI Read(PDEVICE_OBJECT DeviceObject, PIRP Irp) {
    PEXTENSION Extension = DeviceObject->DeviceExtension;
    NTSTATUS Status = Wait(&Extension->Reads, Irp);
#if WRONG == 5
    Extension->Served += IoGetCurrentIrpStackLocation(Irp)->Parameters.Read.Length != 0;
#endif
    StartNext(Extension);
    return Status;
}

static BOOLEAN SomeWait(PEXTENSION Extension) {
#if WRONG == 2
    return !IsListEmpty(&Extension->Reads.Irps);
#elif WRONG == 50
    return ReadPointerNoFence((PVOID *)&Extension->Reads.Irps.Flink) != &Extension->Reads.Irps;
#else
    BOOLEAN Some;
    KIRQL Irql;
    KeAcquireSpinLock(&Extension->Reads.Lock, &Irql);
    Some = !IsListEmpty(&Extension->Reads.Irps);
    KeReleaseSpinLock(&Extension->Reads.Lock, Irql);
    return Some;
#endif
}

static NTSTATUS NTAPI Write(PDEVICE_OBJECT DeviceObject, PIRP Irp) {
    PEXTENSION Extension = DeviceObject->DeviceExtension;
    if (SomeWait(Extension)) {
        StartNext(Extension);
    }
#if WRONG == 8
    Count(Extension, &Extension->StartLock);
#else
    Count(Extension, &Extension->Reads.Lock);
#endif
    Finish(Irp, STATUS_SUCCESS, 0);
    return STATUS_SUCCESS;
}

static VOID NTAPI Unload(PDRIVER_OBJECT DriverObject) {
#if WRONG != 3 && WRONG != 4
    KeFlushQueuedDpcs();
#endif
    IoDeleteDevice(DriverObject->DeviceObject);
}

NTSTATUS NTAPI DriverEntry(PDRIVER_OBJECT DriverObject, PUNICODE_STRING RegistryPath) {
    PEXTENSION Extension = Begin(DriverObject, sizeof(EXTENSION), Read, Write, Unload);
    UNREFERENCED_PARAMETER(RegistryPath);
    if (Extension == NULL) {
        return STATUS_INSUFFICIENT_RESOURCES;
    }
    KeInitializeSpinLock(&Extension->StartLock);
    KeInitializeDpc(&Extension->Dpc, End, Extension);
    return STATUS_SUCCESS;
}
