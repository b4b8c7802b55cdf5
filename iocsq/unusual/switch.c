/* While the device is off, requests wait in a list with cancel routines. A device control switches
 * it on: it takes back the routines of all under the lock, into a list of its own, and then
 * completes them. */
#include "codes.h"
#include "unusual.h"

typedef struct _EXTENSION {
    READS Parked;
    BOOLEAN IsOn; /* under the lock of Parked */
} EXTENSION, *PEXTENSION;

DRIVER_INITIALIZE DriverEntry;
static DRIVER_DISPATCH Serve, Control, Cleanup;

static NTSTATUS NTAPI Serve(PDEVICE_OBJECT DeviceObject, PIRP Irp) {
    PEXTENSION Extension = DeviceObject->DeviceExtension;
    NTSTATUS Status = STATUS_SUCCESS;
    KIRQL Irql;
    KeAcquireSpinLock(&Extension->Parked.Lock, &Irql);
    if (!Extension->IsOn) {
        IoMarkIrpPending(Irp);
        Status = ArmIn(&Extension->Parked.Irps, Irp, CancelInReads) ? STATUS_PENDING
                                                                    : STATUS_CANCELLED;
        KeReleaseSpinLock(&Extension->Parked.Lock, Irql);
        if (Status != STATUS_PENDING) {
            Complete(Irp, Status);
        }
        return STATUS_PENDING;
    }
    KeReleaseSpinLock(&Extension->Parked.Lock, Irql);
    return Complete(Irp, STATUS_SUCCESS);
}

/* Moves all of this file object, or of any for null, that no cancel has. The lock is held. */
static VOID MoveAll(PREADS Parked, PFILE_OBJECT File, PLIST_ENTRY To) {
    PIRP Irp;
    InitializeListHead(To);
    while ((Irp = TakeFrom(&Parked->Irps, File)) != NULL) {
        InsertTailList(To, &Irp->Tail.Overlay.ListEntry);
    }
}

static VOID CompleteAll(PLIST_ENTRY Head, NTSTATUS Status) {
    while (!IsListEmpty(Head)) {
        Complete(OfEntry(RemoveHeadList(Head)), Status);
    }
}

static NTSTATUS NTAPI Control(PDEVICE_OBJECT DeviceObject, PIRP Irp) {
    PEXTENSION Extension = DeviceObject->DeviceExtension;
    ULONG Code = IoGetCurrentIrpStackLocation(Irp)->Parameters.DeviceIoControl.IoControlCode;
    LIST_ENTRY Started;
    KIRQL Irql;
    if (Code != CODE_ON && Code != CODE_OFF) {
        return Complete(Irp, STATUS_INVALID_DEVICE_REQUEST);
    }
    InitializeListHead(&Started);
    KeAcquireSpinLock(&Extension->Parked.Lock, &Irql);
    Extension->IsOn = Code == CODE_ON;
    if (Extension->IsOn) {
        MoveAll(&Extension->Parked, NULL, &Started);
    }
    KeReleaseSpinLock(&Extension->Parked.Lock, Irql);
    CompleteAll(&Started, STATUS_SUCCESS);
    return Complete(Irp, STATUS_SUCCESS);
}

static NTSTATUS NTAPI Cleanup(PDEVICE_OBJECT DeviceObject, PIRP Irp) {
    PREADS Parked = DeviceObject->DeviceExtension;
    LIST_ENTRY Left;
    KIRQL Irql;
    KeAcquireSpinLock(&Parked->Lock, &Irql);
    FileOf(Irp)->FsContext = Parked;
    MoveAll(Parked, FileOf(Irp), &Left);
    KeReleaseSpinLock(&Parked->Lock, Irql);
    CompleteAll(&Left, STATUS_CANCELLED);
    return Complete(Irp, STATUS_SUCCESS);
}

NTSTATUS NTAPI DriverEntry(PDRIVER_OBJECT DriverObject, PUNICODE_STRING RegistryPath) {
    PEXTENSION Extension = BeginReads(DriverObject, sizeof(EXTENSION), Serve, Serve, Cleanup);
    UNREFERENCED_PARAMETER(RegistryPath);
    if (Extension == NULL) {
        return STATUS_INSUFFICIENT_RESOURCES;
    }
    DriverObject->MajorFunction[IRP_MJ_DEVICE_CONTROL] = Control;
    return STATUS_SUCCESS;
}
