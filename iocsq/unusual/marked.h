/* What mark.c and sweep.c share: the cancel routine only marks its request, in DriverContext[0],
 * and leaves it in the list. A DPC unlinks and completes the requests that the driver says are
 * over. */
#ifndef MARKED_H
#define MARKED_H
#include "unusual.h"

typedef struct _EXTENSION {
    READS Reads; /* the marks are under its lock */
    KDPC Sweeper;
} EXTENSION, *PEXTENSION;

DRIVER_INITIALIZE DriverEntry;
static DRIVER_DISPATCH Read;
static DRIVER_CANCEL CancelRead;
static KDEFERRED_ROUTINE Sweep;
static BOOLEAN IsOver(PIRP Irp); /* of the driver; the lock is held */

static inline BOOLEAN IsMarked(PIRP Irp) {
    return Irp->Tail.Overlay.DriverContext[0] != NULL;
}

static VOID NTAPI CancelRead(PDEVICE_OBJECT DeviceObject, PIRP Irp) {
    PEXTENSION Extension = DeviceObject->DeviceExtension;
    KIRQL Irql;
    IoReleaseCancelSpinLock(Irp->CancelIrql);
    KeAcquireSpinLock(&Extension->Reads.Lock, &Irql);
    Irp->Tail.Overlay.DriverContext[0] = Irp;
    KeReleaseSpinLock(&Extension->Reads.Lock, Irql);
    KeInsertQueueDpc(&Extension->Sweeper, NULL, NULL); /* FALSE: it has yet to run */
}

static PIRP NextOver(PREADS Reads) {
    PLIST_ENTRY Entry;
    PIRP Found = NULL;
    KeAcquireSpinLockAtDpcLevel(&Reads->Lock);
    for (Entry = Reads->Irps.Flink; Entry != &Reads->Irps; Entry = Entry->Flink) {
        if (IsOver(OfEntry(Entry))) {
            Found = OfEntry(Entry);
            RemoveEntryList(Entry);
            break;
        }
    }
    KeReleaseSpinLockFromDpcLevel(&Reads->Lock);
    return Found;
}

static VOID NTAPI Sweep(PKDPC Dpc, PVOID Context, PVOID First, PVOID Second) {
    PIRP Irp;
    UNREFERENCED_PARAMETER(Dpc);
    UNREFERENCED_PARAMETER(First);
    UNREFERENCED_PARAMETER(Second);
    while ((Irp = NextOver(Context)) != NULL) {
        Complete(Irp, STATUS_CANCELLED);
    }
}

NTSTATUS NTAPI DriverEntry(PDRIVER_OBJECT DriverObject, PUNICODE_STRING RegistryPath) {
    PEXTENSION Extension = BeginReads(DriverObject, sizeof(EXTENSION), Read, WriteToReads,
                                      CleanupReads);
    UNREFERENCED_PARAMETER(RegistryPath);
    if (Extension == NULL) {
        return STATUS_INSUFFICIENT_RESOURCES;
    }
    KeInitializeDpc(&Extension->Sweeper, Sweep, &Extension->Reads);
    return STATUS_SUCCESS;
}

#endif
