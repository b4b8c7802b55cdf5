/* A device that does one read at a time, and rests after it. Who removes a read and finds that the
 * device can't take it puts it back in front: a dispatch routine, and the DPC of the device's
 * clock. */
#include "waiting.h"

enum { REST = 2 }; /* ticks */

typedef struct _EXTENSION {
    WAITING Reads;
    KSPIN_LOCK DeviceLock;
    PIRP Current; /* what the device works at; with the next under DeviceLock */
    ULONG Rest;   /* ticks until the device takes another */
    KTIMER Timer;
    KDPC Dpc;
} EXTENSION, *PEXTENSION;

/* ---- The device ---- */
static BOOLEAN Give(PEXTENSION Extension, PIRP Irp) {
    BOOLEAN Given;
    KIRQL Irql;
    KeAcquireSpinLock(&Extension->DeviceLock, &Irql);
    Given = Extension->Current == NULL && Extension->Rest == 0;
    if (Given) {
        Extension->Current = Irp;
    }
    KeReleaseSpinLock(&Extension->DeviceLock, Irql);
    return Given;
}

/* A tick is over: what the device worked at is done. */
static PIRP TakeDone(PEXTENSION Extension) {
    PIRP Done;
    KIRQL Irql;
    KeAcquireSpinLock(&Extension->DeviceLock, &Irql);
    Done = Extension->Current;
    Extension->Current = NULL;
    if (Done != NULL) {
        Extension->Rest = REST;
    } else if (Extension->Rest > 0) {
        Extension->Rest--;
    }
    KeReleaseSpinLock(&Extension->DeviceLock, Irql);
    return Done;
}

/* Nothing is lost where the device is done just before the read goes back: the clock ticks on, and
 * looks again. */
static VOID Start(PEXTENSION Extension) {
    PIRP Next = IoCsqRemoveNextIrp(&Extension->Reads.Queue, NULL);
    if (Next == NULL) {
        return;
    }
#if WRONG == 1
    Give(Extension, Next);
#else
    if (Give(Extension, Next)) {
        return;
    }
#endif
#if WRONG == 2
    IoCsqInsertIrpEx(&Extension->Reads.Queue, Next, NULL, Extension); /* which may be refused */
#else
#if WRONG == 5
    Next->Cancel = FALSE; /* so that it is queued in any case */
#endif
    PutBackInFront(&Extension->Reads, Next);
#endif
}

static KDEFERRED_ROUTINE Tick;
static VOID NTAPI Tick(PKDPC Dpc, PVOID DeferredContext, PVOID SystemArgument1,
                       PVOID SystemArgument2) {
    PEXTENSION Extension = DeferredContext;
    PIRP Done = TakeDone(Extension);
    UNREFERENCED_PARAMETER(Dpc);
    UNREFERENCED_PARAMETER(SystemArgument1);
    UNREFERENCED_PARAMETER(SystemArgument2);
    if (Done != NULL) {
        Finish(Done, STATUS_SUCCESS, 1);
#if WRONG == 3
        PutBackInFront(&Extension->Reads, Done); /* once more, though it is done */
#endif
    }
    Start(Extension);
}

/* ---- The dispatch routines ---- */
static NTSTATUS NTAPI Read(PDEVICE_OBJECT DeviceObject, PIRP Irp) {
    PEXTENSION Extension = DeviceObject->DeviceExtension;
    NTSTATUS Status = Wait(&Extension->Reads, Irp);
    Start(Extension);
    return Status;
}

static NTSTATUS NTAPI Cleanup(PDEVICE_OBJECT DeviceObject, PIRP Irp) {
    PEXTENSION Extension = DeviceObject->DeviceExtension;
#if WRONG == 4
    PIRP Left; /* and the file object isn't marked as closed */
    while ((Left = IoCsqRemoveNextIrp(&Extension->Reads.Queue, FileOf(Irp))) != NULL) {
        Finish(Left, STATUS_CANCELLED, 0);
    }
#else
    CleanUp(&Extension->Reads, FileOf(Irp));
#endif
    return Succeed(DeviceObject, Irp);
}

static VOID NTAPI Unload(PDRIVER_OBJECT DriverObject) {
    KeCancelTimer(&((PEXTENSION)DriverObject->DeviceObject->DeviceExtension)->Timer);
    KeFlushQueuedDpcs();
    IoDeleteDevice(DriverObject->DeviceObject);
}

DRIVER_INITIALIZE DriverEntry;
NTSTATUS NTAPI DriverEntry(PDRIVER_OBJECT DriverObject, PUNICODE_STRING RegistryPath) {
    PDEVICE_OBJECT DeviceObject;
    PEXTENSION Extension;
    LARGE_INTEGER First;
    NTSTATUS Status = MakeDevice(DriverObject, sizeof(EXTENSION), &DeviceObject);
    UNREFERENCED_PARAMETER(RegistryPath);
    if (!NT_SUCCESS(Status)) {
        return Status;
    }
    Extension = DeviceObject->DeviceExtension;
    InitializeWaiting(&Extension->Reads, CompleteWaiting);
    KeInitializeSpinLock(&Extension->DeviceLock);
    KeInitializeDpc(&Extension->Dpc, Tick, Extension);
    KeInitializeTimer(&Extension->Timer);
    First.QuadPart = -10000; /* in a millisecond */
    KeSetTimerEx(&Extension->Timer, First, 1, &Extension->Dpc);
    DriverObject->DriverUnload = Unload;
    DriverObject->MajorFunction[IRP_MJ_READ] = Read;
    DriverObject->MajorFunction[IRP_MJ_WRITE] = Succeed;
    DriverObject->MajorFunction[IRP_MJ_CLEANUP] = Cleanup;
    return STATUS_SUCCESS;
}
