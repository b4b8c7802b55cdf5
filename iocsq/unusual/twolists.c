/* Reads wait in one list, writes in another, for each other. One lock and one cancel routine serve
 * both: it doesn't ask in which list its request is. */
#include "unusual.h"

typedef struct _EXTENSION {
    READS Reads;
    LIST_ENTRY Writes; /* under the lock of Reads; one list is empty, but for what a cancel has */
} EXTENSION, *PEXTENSION;

DRIVER_INITIALIZE DriverEntry;
static DRIVER_DISPATCH ReadWrite, Cleanup;
static DRIVER_CANCEL CancelEither;

static VOID NTAPI CancelEither(PDEVICE_OBJECT DeviceObject, PIRP Irp) {
    CancelIn(DeviceObject->DeviceExtension, Irp);
}

static NTSTATUS NTAPI ReadWrite(PDEVICE_OBJECT DeviceObject, PIRP Irp) {
    PEXTENSION Extension = DeviceObject->DeviceExtension;
    BOOLEAN IsRead = IoGetCurrentIrpStackLocation(Irp)->MajorFunction == IRP_MJ_READ;
    PIRP Other;
    BOOLEAN Waits = FALSE;
    KIRQL Irql;
    IoMarkIrpPending(Irp);
    KeAcquireSpinLock(&Extension->Reads.Lock, &Irql);
    Other = TakeFrom(IsRead ? &Extension->Writes : &Extension->Reads.Irps, NULL);
    if (Other == NULL) {
        Waits = ArmIn(IsRead ? &Extension->Reads.Irps : &Extension->Writes, Irp, CancelEither);
    }
    KeReleaseSpinLock(&Extension->Reads.Lock, Irql);
    if (Other != NULL) {
        Complete(Other, STATUS_SUCCESS);
    }
    if (!Waits) {
        Complete(Irp, Other != NULL ? STATUS_SUCCESS : STATUS_CANCELLED);
    }
    return STATUS_PENDING;
}

/* One of either list. */
static PIRP TakeLeft(PEXTENSION Extension, PFILE_OBJECT File) {
    PIRP Irp;
    KIRQL Irql;
    KeAcquireSpinLock(&Extension->Reads.Lock, &Irql);
    File->FsContext = Extension;
    Irp = TakeFrom(&Extension->Reads.Irps, File);
    if (Irp == NULL) {
        Irp = TakeFrom(&Extension->Writes, File);
    }
    KeReleaseSpinLock(&Extension->Reads.Lock, Irql);
    return Irp;
}

static NTSTATUS NTAPI Cleanup(PDEVICE_OBJECT DeviceObject, PIRP Irp) {
    PIRP Left;
    while ((Left = TakeLeft(DeviceObject->DeviceExtension, FileOf(Irp))) != NULL) {
        Complete(Left, STATUS_CANCELLED);
    }
    return Complete(Irp, STATUS_SUCCESS);
}

NTSTATUS NTAPI DriverEntry(PDRIVER_OBJECT DriverObject, PUNICODE_STRING RegistryPath) {
    PEXTENSION Extension = BeginReads(DriverObject, sizeof(EXTENSION), ReadWrite, ReadWrite,
                                      Cleanup);
    UNREFERENCED_PARAMETER(RegistryPath);
    if (Extension == NULL) {
        return STATUS_INSUFFICIENT_RESOURCES;
    }
    InitializeListHead(&Extension->Writes);
    return STATUS_SUCCESS;
}
