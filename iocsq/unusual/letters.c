/* A letter box without an IO_CSQ that is seldom empty: a write brings eight letters, and a read
 * takes one at once. Only if there is none it waits; a write then completes as many reads as it has
 * letters for. */
#include "unusual.h"

#define BUNDLE 8
#define MOST 64

typedef struct _EXTENSION {
    READS Reads;   /* none waits while there is a letter */
    ULONG Letters; /* under their lock */
} EXTENSION, *PEXTENSION;

DRIVER_INITIALIZE DriverEntry;
static DRIVER_DISPATCH Read, Write;

BOOLEAN MayWait(PIRP Irp);
BOOLEAN MayWait(PIRP Irp) {
    PEXTENSION Extension = IoGetCurrentIrpStackLocation(Irp)->DeviceObject->DeviceExtension;
    return Extension->Letters == 0;
}

static NTSTATUS NTAPI Read(PDEVICE_OBJECT DeviceObject, PIRP Irp) {
    PEXTENSION Extension = DeviceObject->DeviceExtension;
    NTSTATUS Status = STATUS_SUCCESS;
    KIRQL Irql;
    KeAcquireSpinLock(&Extension->Reads.Lock, &Irql);
    if (Extension->Letters > 0) {
        Extension->Letters--;
    } else if (ArmIn(&Extension->Reads.Irps, Irp, CancelInReads)) {
        IoMarkIrpPending(Irp);
        Status = STATUS_PENDING;
    } else {
        Status = STATUS_CANCELLED;
    }
    KeReleaseSpinLock(&Extension->Reads.Lock, Irql);
    return Status == STATUS_PENDING ? Status : Complete(Irp, Status);
}

/* Takes the reads for which there are letters to a list of the caller's. The lock is held. */
static VOID Pair(PEXTENSION Extension, PLIST_ENTRY Taken) {
    PIRP Irp;
    while (Extension->Letters > 0 && (Irp = TakeFrom(&Extension->Reads.Irps, NULL)) != NULL) {
        Extension->Letters--;
        InsertTailList(Taken, &Irp->Tail.Overlay.ListEntry);
    }
}

static NTSTATUS NTAPI Write(PDEVICE_OBJECT DeviceObject, PIRP Irp) {
    PEXTENSION Extension = DeviceObject->DeviceExtension;
    LIST_ENTRY Taken;
    KIRQL Irql;
    InitializeListHead(&Taken);
    KeAcquireSpinLock(&Extension->Reads.Lock, &Irql);
    Extension->Letters = min(Extension->Letters + BUNDLE, MOST);
    Pair(Extension, &Taken);
    KeReleaseSpinLock(&Extension->Reads.Lock, Irql);
    while (!IsListEmpty(&Taken)) {
        Complete(OfEntry(RemoveHeadList(&Taken)), STATUS_SUCCESS);
    }
    return Complete(Irp, STATUS_SUCCESS);
}

NTSTATUS NTAPI DriverEntry(PDRIVER_OBJECT DriverObject, PUNICODE_STRING RegistryPath) {
    PVOID Extension = BeginReads(DriverObject, sizeof(EXTENSION), Read, Write, CleanupReads);
    UNREFERENCED_PARAMETER(RegistryPath);
    return Extension != NULL ? STATUS_SUCCESS : STATUS_INSUFFICIENT_RESOURCES;
}
