/* One timer for all reads, which ends the next one, and a ticket of its last use. Wrong: the ticket
 * is written for the next use though the DPC of the one before may still read it. */
#include "device.h"

typedef struct _EXTENSION {
    WAITING Reads;
    KTIMER Timer;
    KDPC Dpc;
    KSPIN_LOCK Lock;
    ULONG Ticket; /* under Lock */
} EXTENSION, *PEXTENSION;

DRIVER_INITIALIZE DriverEntry;
static DRIVER_DISPATCH Read, Write;
static DRIVER_UNLOAD Unload;
static KDEFERRED_ROUTINE Tick;

static VOID NTAPI Tick(PKDPC Dpc, PVOID Context, PVOID First, PVOID Second) {
    PEXTENSION Extension = Context;
    PIRP Irp = IoCsqRemoveNextIrp(&Extension->Reads.Queue, NULL);
    ULONG Ticket;
    UNREFERENCED_PARAMETER(Dpc);
    UNREFERENCED_PARAMETER(First);
    UNREFERENCED_PARAMETER(Second);
    KeAcquireSpinLockAtDpcLevel(&Extension->Lock);
    Ticket = Extension->Ticket;
    KeReleaseSpinLockFromDpcLevel(&Extension->Lock);
    if (Irp != NULL) {
        Finish(Irp, STATUS_IO_TIMEOUT, Ticket & 1);
    }
}

static VOID SetTimer(PEXTENSION Extension) {
    LARGE_INTEGER Soon;
    KIRQL Irql;
    Soon.QuadPart = -10000; /* a millisecond */
#if WRONG == 1
    UNREFERENCED_PARAMETER(Irql);
    KeCancelTimer(&Extension->Timer); /* and its DPC may be queued, or run */
    Extension->Ticket++;
#else
    KeAcquireSpinLock(&Extension->Lock, &Irql);
    Extension->Ticket++;
    KeReleaseSpinLock(&Extension->Lock, Irql);
#endif
    KeSetTimer(&Extension->Timer, Soon, &Extension->Dpc);
}

static NTSTATUS NTAPI Read(PDEVICE_OBJECT DeviceObject, PIRP Irp) {
    PEXTENSION Extension = DeviceObject->DeviceExtension;
    NTSTATUS Status = Wait(&Extension->Reads, Irp);
    SetTimer(Extension);
    return Status;
}

static NTSTATUS NTAPI Write(PDEVICE_OBJECT DeviceObject, PIRP Irp) {
    UNREFERENCED_PARAMETER(DeviceObject);
    Finish(Irp, STATUS_SUCCESS, 0);
    return STATUS_SUCCESS;
}

static VOID NTAPI Unload(PDRIVER_OBJECT DriverObject) {
    PEXTENSION Extension = DriverObject->DeviceObject->DeviceExtension;
    KeCancelTimer(&Extension->Timer);
    KeFlushQueuedDpcs();
    IoDeleteDevice(DriverObject->DeviceObject);
}

NTSTATUS NTAPI DriverEntry(PDRIVER_OBJECT DriverObject, PUNICODE_STRING RegistryPath) {
    PEXTENSION Extension = Begin(DriverObject, sizeof(EXTENSION), Read, Write, Unload);
    UNREFERENCED_PARAMETER(RegistryPath);
    if (Extension == NULL) {
        return STATUS_INSUFFICIENT_RESOURCES;
    }
    KeInitializeSpinLock(&Extension->Lock);
    KeInitializeTimer(&Extension->Timer);
    KeInitializeDpc(&Extension->Dpc, Tick, Extension);
    return STATUS_SUCCESS;
}
