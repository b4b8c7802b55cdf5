/* No list: an array of slots, and DriverContext[0] of a request says which is its own. A request
 * that finds all in use is refused. */
#include "unusual.h"

enum { SLOTS = 3 };

typedef struct _EXTENSION {
    KSPIN_LOCK Lock;
    PIRP Slots[SLOTS]; /* under Lock */
} EXTENSION, *PEXTENSION;

DRIVER_INITIALIZE DriverEntry;
static DRIVER_DISPATCH Read, Write, Cleanup;
static DRIVER_CANCEL CancelRead;

static VOID NTAPI CancelRead(PDEVICE_OBJECT DeviceObject, PIRP Irp) {
    PEXTENSION Extension = DeviceObject->DeviceExtension;
    KIRQL Irql;
    IoReleaseCancelSpinLock(Irp->CancelIrql);
    KeAcquireSpinLock(&Extension->Lock, &Irql);
    Extension->Slots[(ULONG_PTR)Irp->Tail.Overlay.DriverContext[0]] = NULL;
    KeReleaseSpinLock(&Extension->Lock, Irql);
    Complete(Irp, STATUS_CANCELLED);
}

/* STATUS_PENDING: it waits in this slot. The lock is held. */
static NTSTATUS Fill(PEXTENSION Extension, ULONG_PTR At, PIRP Irp) {
    Irp->Tail.Overlay.DriverContext[0] = (PVOID)At;
    Extension->Slots[At] = Irp;
    IoSetCancelRoutine(Irp, CancelRead);
    if (Irp->Cancel && IoSetCancelRoutine(Irp, NULL) != NULL) {
        Extension->Slots[At] = NULL;
        return STATUS_CANCELLED;
    }
    return STATUS_PENDING;
}

static NTSTATUS NTAPI Read(PDEVICE_OBJECT DeviceObject, PIRP Irp) {
    PEXTENSION Extension = DeviceObject->DeviceExtension;
    NTSTATUS Status;
    ULONG_PTR At = 0;
    KIRQL Irql;
    KeAcquireSpinLock(&Extension->Lock, &Irql);
    while (At < SLOTS && Extension->Slots[At] != NULL) {
        At++;
    }
    if (At == SLOTS || IsClosed(Irp)) {
        KeReleaseSpinLock(&Extension->Lock, Irql);
        return Complete(Irp, STATUS_DEVICE_BUSY);
    }
    IoMarkIrpPending(Irp);
    Status = Fill(Extension, At, Irp);
    KeReleaseSpinLock(&Extension->Lock, Irql);
    if (Status != STATUS_PENDING) {
        Complete(Irp, Status);
    }
    return STATUS_PENDING;
}

/* The first that no cancel has, of this file object or of any for null; its slot is empty then. */
static PIRP EmptySlot(PEXTENSION Extension, PFILE_OBJECT File) {
    PIRP Found = NULL;
    ULONG At;
    KIRQL Irql;
    KeAcquireSpinLock(&Extension->Lock, &Irql);
    for (At = 0; At < SLOTS && Found == NULL; At++) {
        PIRP Irp = Extension->Slots[At];
        if (Irp != NULL && (File == NULL || FileOf(Irp) == File) &&
            IoSetCancelRoutine(Irp, NULL) != NULL) {
            Extension->Slots[At] = NULL;
            Found = Irp;
        }
    }
    KeReleaseSpinLock(&Extension->Lock, Irql);
    return Found;
}

static NTSTATUS NTAPI Write(PDEVICE_OBJECT DeviceObject, PIRP Irp) {
    return CompleteBoth(EmptySlot(DeviceObject->DeviceExtension, NULL), Irp);
}

static NTSTATUS NTAPI Cleanup(PDEVICE_OBJECT DeviceObject, PIRP Irp) {
    PEXTENSION Extension = DeviceObject->DeviceExtension;
    PIRP Left;
    MarkClosed(&Extension->Lock, FileOf(Irp));
    while ((Left = EmptySlot(Extension, FileOf(Irp))) != NULL) {
        Complete(Left, STATUS_CANCELLED);
    }
    return Complete(Irp, STATUS_SUCCESS);
}

NTSTATUS NTAPI DriverEntry(PDRIVER_OBJECT DriverObject, PUNICODE_STRING RegistryPath) {
    PEXTENSION Extension = Begin(DriverObject, sizeof(EXTENSION), Read, Write, Cleanup);
    UNREFERENCED_PARAMETER(RegistryPath);
    if (Extension == NULL) {
        return STATUS_INSUFFICIENT_RESOURCES;
    }
    KeInitializeSpinLock(&Extension->Lock);
    return STATUS_SUCCESS;
}
