/* A timer with a DPC: at each tick the oldest read gives up. */
#include "waiting.h"

#define TICK_IN_MILLISECONDS 1

typedef struct _EXTENSION {
    WAITING Reads;
    KTIMER Timer;
    KDPC Dpc;
    KEVENT Never;
} EXTENSION, *PEXTENSION;

static KDEFERRED_ROUTINE Tick;
static VOID NTAPI Tick(PKDPC Dpc, PVOID DeferredContext, PVOID SystemArgument1,
                       PVOID SystemArgument2) {
    PEXTENSION Extension = DeferredContext;
    PIRP Oldest;
    UNREFERENCED_PARAMETER(Dpc);
    UNREFERENCED_PARAMETER(SystemArgument1);
    UNREFERENCED_PARAMETER(SystemArgument2);
#if WRONG == 3
    {
        LARGE_INTEGER Short;
        Short.QuadPart = -10;
        KeWaitForSingleObject(&Extension->Never, Executive, KernelMode, FALSE, &Short);
    }
#endif
    Oldest = IoCsqRemoveNextIrp(&Extension->Reads.Queue, NULL);
    if (Oldest != NULL) {
        Finish(Oldest, STATUS_TIMEOUT, 0);
    }
}

static NTSTATUS NTAPI Read(PDEVICE_OBJECT DeviceObject, PIRP Irp) {
    return Wait(&((PEXTENSION)DeviceObject->DeviceExtension)->Reads, Irp);
}

static NTSTATUS NTAPI Cleanup(PDEVICE_OBJECT DeviceObject, PIRP Irp) {
    CleanUp(&((PEXTENSION)DeviceObject->DeviceExtension)->Reads, FileOf(Irp));
    return Succeed(DeviceObject, Irp);
}

static VOID NTAPI Unload(PDRIVER_OBJECT DriverObject) {
    PEXTENSION Extension = DriverObject->DeviceObject->DeviceExtension;
#if WRONG == 1
    UNREFERENCED_PARAMETER(Extension); /* and the timer stays set */
#else
    KeCancelTimer(&Extension->Timer);
#endif
#if WRONG != 2
    KeFlushQueuedDpcs(); /* a tick may have come just before */
#endif
    IoDeleteDevice(DriverObject->DeviceObject);
}

DRIVER_INITIALIZE DriverEntry;
NTSTATUS NTAPI DriverEntry(PDRIVER_OBJECT DriverObject, PUNICODE_STRING RegistryPath) {
    PDEVICE_OBJECT DeviceObject;
    PEXTENSION Extension;
    LARGE_INTEGER First;
    NTSTATUS Status = MakeDevice(DriverObject, sizeof(EXTENSION), &DeviceObject);
    UNREFERENCED_PARAMETER(RegistryPath);
    if (!NT_SUCCESS(Status)) {
        return Status;
    }
    Extension = DeviceObject->DeviceExtension;
    InitializeWaiting(&Extension->Reads, CompleteWaiting);
    KeInitializeEvent(&Extension->Never, NotificationEvent, FALSE);
    KeInitializeDpc(&Extension->Dpc, Tick, Extension);
    KeInitializeTimer(&Extension->Timer);
    First.QuadPart = -10000;
    /* A period of 0: once alone. */
    KeSetTimerEx(&Extension->Timer, First, WRONG == 4 ? 0 : TICK_IN_MILLISECONDS, &Extension->Dpc);
    DriverObject->DriverUnload = Unload;
    DriverObject->MajorFunction[IRP_MJ_READ] = Read;
    DriverObject->MajorFunction[IRP_MJ_WRITE] = Succeed;
    DriverObject->MajorFunction[IRP_MJ_CLEANUP] = Cleanup;
    return STATUS_SUCCESS;
}
