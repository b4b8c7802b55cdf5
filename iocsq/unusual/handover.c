/* The cancel routine moves its request into a second list, and a DPC completes what is there: one
 * lock for both lists. */
#include "unusual.h"

typedef struct _EXTENSION {
    READS Reads;
    LIST_ENTRY Cancelled; /* under the lock of Reads */
    KDPC Dpc;
} EXTENSION, *PEXTENSION;

DRIVER_INITIALIZE DriverEntry;
static DRIVER_DISPATCH Read;
static DRIVER_CANCEL CancelRead;
static KDEFERRED_ROUTINE CompleteCancelled;

static VOID NTAPI CancelRead(PDEVICE_OBJECT DeviceObject, PIRP Irp) {
    PEXTENSION Extension = DeviceObject->DeviceExtension;
    KIRQL Irql = Irp->CancelIrql;
    KeAcquireSpinLockAtDpcLevel(&Extension->Reads.Lock); /* after the cancel spin lock */
    RemoveEntryList(&Irp->Tail.Overlay.ListEntry);
    InsertTailList(&Extension->Cancelled, &Irp->Tail.Overlay.ListEntry);
    KeReleaseSpinLockFromDpcLevel(&Extension->Reads.Lock);
    KeInsertQueueDpc(&Extension->Dpc, NULL, NULL);
    IoReleaseCancelSpinLock(Irql);
}

static PIRP NextCancelled(PEXTENSION Extension) {
    PIRP Irp = NULL;
    KeAcquireSpinLockAtDpcLevel(&Extension->Reads.Lock);
    if (!IsListEmpty(&Extension->Cancelled)) {
        Irp = OfEntry(RemoveHeadList(&Extension->Cancelled));
    }
    KeReleaseSpinLockFromDpcLevel(&Extension->Reads.Lock);
    return Irp;
}

static VOID NTAPI CompleteCancelled(PKDPC Dpc, PVOID Context, PVOID First, PVOID Second) {
    PIRP Irp;
    UNREFERENCED_PARAMETER(Dpc);
    UNREFERENCED_PARAMETER(First);
    UNREFERENCED_PARAMETER(Second);
    while ((Irp = NextCancelled(Context)) != NULL) {
        Complete(Irp, STATUS_CANCELLED);
    }
}

static NTSTATUS NTAPI Read(PDEVICE_OBJECT DeviceObject, PIRP Irp) {
    IoMarkIrpPending(Irp);
    WaitIn(DeviceObject->DeviceExtension, Irp, CancelRead);
    return STATUS_PENDING;
}

NTSTATUS NTAPI DriverEntry(PDRIVER_OBJECT DriverObject, PUNICODE_STRING RegistryPath) {
    PEXTENSION Extension = BeginReads(DriverObject, sizeof(EXTENSION), Read, WriteToReads,
                                      CleanupReads);
    UNREFERENCED_PARAMETER(RegistryPath);
    if (Extension == NULL) {
        return STATUS_INSUFFICIENT_RESOURCES;
    }
    InitializeListHead(&Extension->Cancelled);
    KeInitializeDpc(&Extension->Dpc, CompleteCancelled, Extension);
    return STATUS_SUCCESS;
}
