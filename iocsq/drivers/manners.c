/* What a driver owes the I/O manager beside its queue: it leaves an IRP alone that it queued or
 * completed, says no more bytes than there are, answers what it completed with, takes its locks in
 * one order, refuses before it empties, and completes an IRP in one thread. */
#include "waiting.h"

typedef struct _EXTENSION {
    WAITING Reads;
    KSPIN_LOCK Device; /* of Served; taken before Statistics where both are */
    KSPIN_LOCK Statistics;
    ULONG Served, Seen;
    PIRP Serving; /* of WRONG == 7: the read that a write completes */
} EXTENSION, *PEXTENSION;

static NTSTATUS NTAPI Read(PDEVICE_OBJECT DeviceObject, PIRP Irp) {
    NTSTATUS Status = Wait(&((PEXTENSION)DeviceObject->DeviceExtension)->Reads, Irp);
#if WRONG == 1
    if (Status == STATUS_PENDING) {
        Irp->IoStatus.Status = Status; /* of an IRP that may be completed */
    }
#endif
    return Status;
}

static VOID Serve(PEXTENSION Extension, PIRP Waiting) {
    PUCHAR Byte = Waiting->AssociatedIrp.SystemBuffer;
    KIRQL Irql;
    KeAcquireSpinLock(&Extension->Device, &Irql);
    Extension->Served++;
    KeAcquireSpinLockAtDpcLevel(&Extension->Statistics);
    Extension->Seen++;
    KeReleaseSpinLockFromDpcLevel(&Extension->Statistics);
    KeReleaseSpinLock(&Extension->Device, Irql);
#if WRONG == 7
    Extension->Serving = Waiting;
#endif
#if WRONG != 8
    *Byte = 0;
#endif
    Finish(Waiting, STATUS_SUCCESS, WRONG == 3 ? 4096 : 1);
#if WRONG == 8
    *Byte = 0; /* which goes with the IRP */
#endif
#if WRONG == 7
    Extension->Serving = NULL;
#endif
#if WRONG == 2
    if (Waiting->IoStatus.Information == 0) {
        Extension->Served--; /* by what a completed IRP says */
    }
#endif
}

static NTSTATUS NTAPI Write(PDEVICE_OBJECT DeviceObject, PIRP Irp) {
    PEXTENSION Extension = DeviceObject->DeviceExtension;
    PIRP Waiting = IoCsqRemoveNextIrp(&Extension->Reads.Queue, FileOf(Irp));
    if (Waiting == NULL) {
        Finish(Irp, STATUS_DEVICE_NOT_READY, 0);
        return WRONG == 4 ? STATUS_SUCCESS : STATUS_DEVICE_NOT_READY;
    }
    Serve(Extension, Waiting);
    return Succeed(DeviceObject, Irp);
}

static NTSTATUS NTAPI Control(PDEVICE_OBJECT DeviceObject, PIRP Irp) {
    PEXTENSION Extension = DeviceObject->DeviceExtension;
    KIRQL Irql;
#if WRONG == 7
    PIRP Serving = Extension->Serving;
    Extension->Serving = NULL;
    if (Serving != NULL) {
        Finish(Serving, STATUS_CANCELLED, 0); /* as the write does */
    }
#endif
#if WRONG == 5
    KeAcquireSpinLock(&Extension->Statistics, &Irql); /* in the other order */
    KeAcquireSpinLockAtDpcLevel(&Extension->Device);
#else
    KeAcquireSpinLock(&Extension->Device, &Irql);
    KeAcquireSpinLockAtDpcLevel(&Extension->Statistics);
#endif
    Extension->Served = Extension->Seen = 0;
    KeReleaseSpinLockFromDpcLevel(WRONG == 5 ? &Extension->Device : &Extension->Statistics);
    KeReleaseSpinLock(WRONG == 5 ? &Extension->Statistics : &Extension->Device, Irql);
    return Succeed(DeviceObject, Irp);
}

static NTSTATUS NTAPI Cleanup(PDEVICE_OBJECT DeviceObject, PIRP Irp) {
    PWAITING Reads = &((PEXTENSION)DeviceObject->DeviceExtension)->Reads;
#if WRONG == 6
    PIRP Waiting;
    while ((Waiting = IoCsqRemoveNextIrp(&Reads->Queue, FileOf(Irp))) != NULL) {
        Finish(Waiting, STATUS_CANCELLED, 0);
    }
    CloseFile(Reads, FileOf(Irp)); /* after what other threads inserted meanwhile */
#else
    CleanUp(Reads, FileOf(Irp));
#endif
    return Succeed(DeviceObject, Irp);
}

static VOID NTAPI Unload(PDRIVER_OBJECT DriverObject) {
    IoDeleteDevice(DriverObject->DeviceObject);
}

DRIVER_INITIALIZE DriverEntry;
NTSTATUS NTAPI DriverEntry(PDRIVER_OBJECT DriverObject, PUNICODE_STRING RegistryPath) {
    PDEVICE_OBJECT DeviceObject;
    PEXTENSION Extension;
    NTSTATUS Status = MakeDevice(DriverObject, sizeof(EXTENSION), &DeviceObject);
    UNREFERENCED_PARAMETER(RegistryPath);
    if (!NT_SUCCESS(Status)) {
        return Status;
    }
    Extension = DeviceObject->DeviceExtension;
    KeInitializeSpinLock(&Extension->Device);
    KeInitializeSpinLock(&Extension->Statistics);
    InitializeWaiting(&Extension->Reads, CompleteWaiting);
    DriverObject->DriverUnload = Unload;
    DriverObject->MajorFunction[IRP_MJ_READ] = Read;
    DriverObject->MajorFunction[IRP_MJ_WRITE] = Write;
    DriverObject->MajorFunction[IRP_MJ_DEVICE_CONTROL] = Control;
    DriverObject->MajorFunction[IRP_MJ_CLEANUP] = Cleanup;
    return STATUS_SUCCESS;
}
