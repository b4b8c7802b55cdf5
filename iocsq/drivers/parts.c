/* A device that interrupts: its service routine counts what has come, and a DPC ends as many reads.
 * Each read has a slot, of a list without a lock; a resource guards how many may wait, which a
 * write sets; a timer of the executive ends the oldest read now and then. */
#include "waiting.h"

#define SLOTS 8
#define TICK (-30000) /* 3 milliseconds */

typedef struct _SLOT {
    SLIST_ENTRY Entry; /* while it is free */
    ULONG Uses;
} SLOT, *PSLOT;

typedef struct _EXTENSION {
    WAITING Reads;
    ERESOURCE Settings;
    ULONG Most; /* under Settings: how many reads may wait */
    SLIST_HEADER Free;
    SLOT Slots[SLOTS];
    PKINTERRUPT Interrupt;
    ULONG Come;      /* with the next under the interrupt's lock */
    BOOLEAN Stopped; /* the device interrupts no more */
    KDPC Dpc;
    PEX_TIMER Timer;
} EXTENSION, *PEXTENSION;

/* ---- Slots: a read has one from before it waits until it is finished ---- */
static VOID FinishRead(PEXTENSION Extension, PIRP Irp, NTSTATUS Status) {
    PSLOT Slot = Irp->Tail.Overlay.DriverContext[0];
    Slot->Uses++;
    InterlockedPushEntrySList(&Extension->Free, &Slot->Entry);
#if WRONG == 4
    if (Status == STATUS_CANCELLED) {
        InterlockedPushEntrySList(&Extension->Free, &Slot->Entry);
    }
#endif
    Finish(Irp, Status, 0);
}

static VOID NTAPI CompleteRead(PIO_CSQ Csq, PIRP Irp) {
    FinishRead(CONTAINING_RECORD(Csq, EXTENSION, Reads.Queue), Irp, STATUS_CANCELLED);
}

/* ---- The device ---- */
static BOOLEAN NTAPI TakeCome(PVOID SynchronizeContext) {
    PEXTENSION Extension = SynchronizeContext;
    BOOLEAN Some = Extension->Come > 0;
    Extension->Come -= Some;
    return Some;
}

static VOID NTAPI EndReads(PKDPC Dpc, PVOID DeferredContext, PVOID SystemArgument1,
                           PVOID SystemArgument2) {
    PEXTENSION Extension = DeferredContext;
    UNREFERENCED_PARAMETER(Dpc);
    UNREFERENCED_PARAMETER(SystemArgument1);
    UNREFERENCED_PARAMETER(SystemArgument2);
#if WRONG == 6
    ExAcquireResourceSharedLite(&Extension->Settings, FALSE);
#endif
    while (KeSynchronizeExecution(Extension->Interrupt, TakeCome, Extension)) {
        PIRP Irp = IoCsqRemoveNextIrp(&Extension->Reads.Queue, NULL);
        if (Irp != NULL) {
            FinishRead(Extension, Irp, STATUS_SUCCESS);
        }
    }
}

static BOOLEAN NTAPI Service(PKINTERRUPT Interrupt, PVOID ServiceContext) {
    PEXTENSION Extension = ServiceContext;
    UNREFERENCED_PARAMETER(Interrupt);
#if WRONG == 7
    {
        PIRP Irp = IoCsqRemoveNextIrp(&Extension->Reads.Queue, NULL);
        UNREFERENCED_PARAMETER(Irp);
    }
#endif
    if (Extension->Stopped) {
        return FALSE;
    }
    Extension->Come++;
    KeInsertQueueDpc(&Extension->Dpc, NULL, NULL);
    return TRUE;
}

static BOOLEAN NTAPI Stop(PVOID SynchronizeContext) {
    PEXTENSION Extension = SynchronizeContext;
    Extension->Stopped = TRUE;
    return TRUE;
}

static VOID NTAPI Tick(PEX_TIMER Timer, PVOID Context) {
    PEXTENSION Extension = Context;
    PIRP Irp = IoCsqRemoveNextIrp(&Extension->Reads.Queue, NULL);
    UNREFERENCED_PARAMETER(Timer);
    if (Irp != NULL) {
        FinishRead(Extension, Irp, STATUS_TIMEOUT);
    }
}

/* ---- Requests ---- */
/* Whether one more may wait: there are slots, and as many as the setting says don't. */
static BOOLEAN MayWait(PEXTENSION Extension) {
    BOOLEAN May;
    ExAcquireResourceSharedLite(&Extension->Settings, TRUE);
    May = (ULONG)SLOTS - QueryDepthSList(&Extension->Free) < Extension->Most;
#if WRONG == 1
    if (!May) {
        return FALSE;
    }
#endif
    ExReleaseResourceLite(&Extension->Settings);
    return May;
}

static NTSTATUS NTAPI Read(PDEVICE_OBJECT DeviceObject, PIRP Irp) {
    PEXTENSION Extension = DeviceObject->DeviceExtension;
    PSLIST_ENTRY Entry = MayWait(Extension) ? InterlockedPopEntrySList(&Extension->Free) : NULL;
    NTSTATUS Status;
    if (Entry == NULL) {
        Finish(Irp, STATUS_DEVICE_BUSY, 0);
        return STATUS_DEVICE_BUSY;
    }
    Irp->Tail.Overlay.DriverContext[0] = CONTAINING_RECORD(Entry, SLOT, Entry);
    Status = IoCsqInsertIrpEx(&Extension->Reads.Queue, Irp, NULL, NULL);
    if (!NT_SUCCESS(Status)) {
        FinishRead(Extension, Irp, Status);
    }
    return Status;
}

/* Sets how many may wait, by the first byte. */
static NTSTATUS NTAPI Write(PDEVICE_OBJECT DeviceObject, PIRP Irp) {
    PEXTENSION Extension = DeviceObject->DeviceExtension;
    PUCHAR Bytes = Irp->AssociatedIrp.SystemBuffer;
    ExAcquireResourceExclusiveLite(&Extension->Settings, TRUE);
    Extension->Most = Bytes != NULL ? SLOTS / 2 + Bytes[0] % (SLOTS / 2 + 1) : SLOTS;
#if WRONG == 3
    ExConvertExclusiveToSharedLite(&Extension->Settings);
    ExAcquireResourceExclusiveLite(&Extension->Settings, TRUE);
    ExReleaseResourceLite(&Extension->Settings);
#endif
    ExReleaseResourceLite(&Extension->Settings);
    return Succeed(DeviceObject, Irp);
}

static NTSTATUS NTAPI Cleanup(PDEVICE_OBJECT DeviceObject, PIRP Irp) {
    PEXTENSION Extension = DeviceObject->DeviceExtension;
    PIRP Read;
    CloseFile(&Extension->Reads, FileOf(Irp));
    while ((Read = IoCsqRemoveNextIrp(&Extension->Reads.Queue, FileOf(Irp))) != NULL) {
        FinishRead(Extension, Read, STATUS_CANCELLED);
    }
    return Succeed(DeviceObject, Irp);
}

/* ---- Its beginning and end ---- */
static VOID NTAPI Unload(PDRIVER_OBJECT DriverObject) {
    PEXTENSION Extension = DriverObject->DeviceObject->DeviceExtension;
    /* A DPC that is queued uses the interrupt. */
    KeSynchronizeExecution(Extension->Interrupt, Stop, Extension);
    KeFlushQueuedDpcs();
#if WRONG != 8
    IoDisconnectInterrupt(Extension->Interrupt);
#endif
#if WRONG == 5
    ExCancelTimer(Extension->Timer, NULL);
    KeFlushQueuedDpcs();
#else
    ExDeleteTimer(Extension->Timer, TRUE, TRUE, NULL);
#endif
#if WRONG != 2
    ExDeleteResourceLite(&Extension->Settings);
#endif
    IoDeleteDevice(DriverObject->DeviceObject);
}

static NTSTATUS Begin(PEXTENSION Extension) {
    ULONG At;
    InitializeWaiting(&Extension->Reads, CompleteRead);
    InitializeSListHead(&Extension->Free);
    for (At = 0; At < SLOTS; At++) {
        InterlockedPushEntrySList(&Extension->Free, &Extension->Slots[At].Entry);
    }
    Extension->Most = SLOTS;
    KeInitializeDpc(&Extension->Dpc, EndReads, Extension);
    Extension->Timer = ExAllocateTimer(Tick, Extension, EX_TIMER_NO_WAKE);
    if (Extension->Timer == NULL) {
        return STATUS_INSUFFICIENT_RESOURCES;
    }
    return IoConnectInterrupt(&Extension->Interrupt, Service, Extension, NULL, 9, 5, 5,
                              LevelSensitive, TRUE, 1, FALSE);
}

DRIVER_INITIALIZE DriverEntry;
NTSTATUS NTAPI DriverEntry(PDRIVER_OBJECT DriverObject, PUNICODE_STRING RegistryPath) {
    PDEVICE_OBJECT DeviceObject;
    PEXTENSION Extension;
    NTSTATUS Status = MakeDevice(DriverObject, sizeof(EXTENSION), &DeviceObject);
    UNREFERENCED_PARAMETER(RegistryPath);
    if (!NT_SUCCESS(Status)) {
        return Status;
    }
    Extension = DeviceObject->DeviceExtension;
    Status = Begin(Extension);
    if (!NT_SUCCESS(Status)) {
        if (Extension->Timer != NULL) {
            ExDeleteTimer(Extension->Timer, TRUE, TRUE, NULL);
        }
        IoDeleteDevice(DeviceObject);
        return Status;
    }
    ExInitializeResourceLite(&Extension->Settings);
    ExSetTimer(Extension->Timer, TICK, -TICK, NULL);
    DriverObject->DriverUnload = Unload;
    DriverObject->MajorFunction[IRP_MJ_READ] = Read;
    DriverObject->MajorFunction[IRP_MJ_WRITE] = Write;
    DriverObject->MajorFunction[IRP_MJ_CLEANUP] = Cleanup;
    return STATUS_SUCCESS;
}
