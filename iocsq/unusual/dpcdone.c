/* Nothing is completed where it is removed or cancelled: its status is noted in the IRP, which goes
 * into a second list, and a DPC completes it. So CsqCompleteCanceledIrp returns before. */
#include "removed.h"

typedef struct _EXTENSION {
    WAITING Reads;
    KSPIN_LOCK Lock;
    LIST_ENTRY Done; /* under Lock: each has its status */
    KDPC Dpc;
} EXTENSION, *PEXTENSION;

static DRIVER_DISPATCH Write;
static KDEFERRED_ROUTINE CompleteDone;

static VOID End(PVOID DeviceExtension, PIRP Irp, NTSTATUS Status) {
    PEXTENSION Extension = DeviceExtension;
    Irp->IoStatus.Status = Status;
    Irp->IoStatus.Information = 0;
    ExInterlockedInsertTailList(&Extension->Done, &Irp->Tail.Overlay.ListEntry, &Extension->Lock);
    KeInsertQueueDpc(&Extension->Dpc, NULL, NULL);
}

static VOID NTAPI CompleteDone(PKDPC Dpc, PVOID Context, PVOID First, PVOID Second) {
    PEXTENSION Extension = Context;
    PLIST_ENTRY Entry;
    UNREFERENCED_PARAMETER(Dpc);
    UNREFERENCED_PARAMETER(First);
    UNREFERENCED_PARAMETER(Second);
    while ((Entry = ExInterlockedRemoveHeadList(&Extension->Done, &Extension->Lock)) != NULL) {
        IoCompleteRequest(OfEntry(Entry), IO_NO_INCREMENT);
    }
}

static NTSTATUS NTAPI Write(PDEVICE_OBJECT DeviceObject, PIRP Irp) {
    EndOldest(DeviceObject->DeviceExtension);
    IoMarkIrpPending(Irp);
    End(DeviceObject->DeviceExtension, Irp, STATUS_SUCCESS);
    return STATUS_PENDING;
}

NTSTATUS NTAPI DriverEntry(PDRIVER_OBJECT DriverObject, PUNICODE_STRING RegistryPath) {
    PEXTENSION Extension = Begin(DriverObject, sizeof(EXTENSION), QueueRead, Write, EndAtCleanup);
    UNREFERENCED_PARAMETER(RegistryPath);
    if (Extension == NULL) {
        return STATUS_INSUFFICIENT_RESOURCES;
    }
    KeInitializeSpinLock(&Extension->Lock);
    InitializeListHead(&Extension->Done);
    KeInitializeDpc(&Extension->Dpc, CompleteDone, Extension);
    InitializeWaiting(&Extension->Reads, EndCanceled);
    return STATUS_SUCCESS;
}
