/* The cleanup walks the list from its head, completes the first that it can take without the lock,
 * and begins again, since the list may be another by then. */
#include "unusual.h"

DRIVER_INITIALIZE DriverEntry;
static DRIVER_DISPATCH Read, Cleanup;
static DRIVER_CANCEL CancelRead;

static VOID NTAPI CancelRead(PDEVICE_OBJECT DeviceObject, PIRP Irp) {
    PREADS Reads = DeviceObject->DeviceExtension;
    KIRQL CancelIrql = Irp->CancelIrql;
    IoReleaseCancelSpinLock(DISPATCH_LEVEL);
    KeAcquireSpinLockAtDpcLevel(&Reads->Lock);
    RemoveEntryList(&Irp->Tail.Overlay.ListEntry);
    KeReleaseSpinLock(&Reads->Lock, CancelIrql); /* here the IRQL falls */
    Complete(Irp, STATUS_CANCELLED);
}

static NTSTATUS NTAPI Read(PDEVICE_OBJECT DeviceObject, PIRP Irp) {
    IoMarkIrpPending(Irp);
    WaitIn(DeviceObject->DeviceExtension, Irp, CancelRead);
    return STATUS_PENDING;
}

static NTSTATUS NTAPI Cleanup(PDEVICE_OBJECT DeviceObject, PIRP Irp) {
    PREADS Reads = DeviceObject->DeviceExtension;
    PFILE_OBJECT File = FileOf(Irp);
    PLIST_ENTRY Entry;
    KIRQL Irql;
    KeAcquireSpinLock(&Reads->Lock, &Irql);
    File->FsContext = Reads;
Restart:
    for (Entry = Reads->Irps.Flink; Entry != &Reads->Irps; Entry = Entry->Flink) {
        PIRP Left = OfEntry(Entry);
        if (FileOf(Left) != File || IoSetCancelRoutine(Left, NULL) == NULL) {
            continue;
        }
        RemoveEntryList(Entry);
        KeReleaseSpinLock(&Reads->Lock, Irql);
        Complete(Left, STATUS_CANCELLED);
        KeAcquireSpinLock(&Reads->Lock, &Irql);
        goto Restart;
    }
    KeReleaseSpinLock(&Reads->Lock, Irql);
    return Complete(Irp, STATUS_SUCCESS);
}

NTSTATUS NTAPI DriverEntry(PDRIVER_OBJECT DriverObject, PUNICODE_STRING RegistryPath) {
    PREADS Reads = BeginReads(DriverObject, sizeof(READS), Read, WriteToReads, Cleanup);
    UNREFERENCED_PARAMETER(RegistryPath);
    return Reads != NULL ? STATUS_SUCCESS : STATUS_INSUFFICIENT_RESOURCES;
}
