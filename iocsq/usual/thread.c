/* A worker of the system serves the requests: the first that comes queues a work item, which goes
 * on until none waits. Rundown protection lets the driver go only once the worker has ended. */
#include <wdm.h>
#include <csq.h>

#ifndef WRONG
#define WRONG 0
#endif

#define POOL_TAG 'krow'

typedef struct _STATE {
    IO_CSQ Queue;
    LIST_ENTRY List;
    KSPIN_LOCK Lock;
} STATE, *PSTATE;

typedef struct _EXTENSION {
    PSTATE State; /* in the nonpaged pool */
    EX_RUNDOWN_REF Rundown;
    PIO_WORKITEM Worker;
    volatile LONG Active;
    volatile LONG64 Bytes;
} EXTENSION, *PEXTENSION;

DRIVER_INITIALIZE DriverEntry;
static IO_WORKITEM_ROUTINE WorkOff;

static PSTATE StateOf(PIO_CSQ Csq) {
    return CONTAINING_RECORD(Csq, STATE, Queue);
}

static NTSTATUS Finish(PIRP Irp, NTSTATUS Status, ULONG_PTR Count) {
    Irp->IoStatus.Status = Status;
    Irp->IoStatus.Information = Count;
    IoCompleteRequest(Irp, IO_NO_INCREMENT);
    return Status;
}

static VOID NTAPI Insert(PIO_CSQ Csq, PIRP Irp) {
    InsertTailList(&StateOf(Csq)->List, &Irp->Tail.Overlay.ListEntry);
}

static VOID NTAPI Remove(PIO_CSQ Csq, PIRP Irp) {
    UNREFERENCED_PARAMETER(Csq);
    RemoveEntryList(&Irp->Tail.Overlay.ListEntry);
}

static PIRP NTAPI Peek(PIO_CSQ Csq, PIRP Irp, PVOID PeekContext) {
    PSTATE State = StateOf(Csq);
    PLIST_ENTRY Entry = Irp == NULL ? State->List.Flink : Irp->Tail.Overlay.ListEntry.Flink;
    while (Entry != &State->List) {
        PIRP Candidate = CONTAINING_RECORD(Entry, IRP, Tail.Overlay.ListEntry);
        if (PeekContext == NULL ||
            PeekContext == IoGetCurrentIrpStackLocation(Candidate)->FileObject) {
            return Candidate;
        }
        Entry = Entry->Flink;
    }
    return NULL;
}

static VOID NTAPI Lock(PIO_CSQ Csq, PKIRQL Irql) {
    KeAcquireSpinLock(&StateOf(Csq)->Lock, Irql);
}

static VOID NTAPI Unlock(PIO_CSQ Csq, KIRQL Irql) {
    KeReleaseSpinLock(&StateOf(Csq)->Lock, Irql);
}

static VOID NTAPI Canceled(PIO_CSQ Csq, PIRP Irp) {
    UNREFERENCED_PARAMETER(Csq);
    Finish(Irp, STATUS_CANCELLED, 0);
}

/* ---- The worker ---- */
static VOID Serve(PEXTENSION Extension, PIRP Irp) {
    PIO_STACK_LOCATION Stack = IoGetCurrentIrpStackLocation(Irp);
    ULONG Length = Stack->Parameters.Read.Length;
    PUCHAR Scratch = ExAllocatePoolWithTag(PagedPool, Length + 1, POOL_TAG);
    if (Scratch == NULL) {
        Finish(Irp, STATUS_INSUFFICIENT_RESOURCES, 0);
        return;
    }
    RtlFillMemory(Scratch, Length, 0x2A);
    if (Stack->MajorFunction == IRP_MJ_READ) {
        RtlCopyMemory(Irp->AssociatedIrp.SystemBuffer, Scratch, Length);
    }
    ExFreePoolWithTag(Scratch, POOL_TAG);
    InterlockedExchangeAdd64(&Extension->Bytes, Length);
    Finish(Irp, STATUS_SUCCESS, Length);
}

static BOOLEAN BecomesActive(PEXTENSION Extension) {
    return InterlockedCompareExchange(&Extension->Active, 1, 0) == 0;
}

/* Those that come as the worker ends may have found it active, so it looks once more after that. If
 * there is one, this worker goes on, unless another has been queued by then, which serves the
 * rest. */
static VOID NTAPI WorkOff(PDEVICE_OBJECT DeviceObject, PVOID Context) {
    PEXTENSION Extension = DeviceObject->DeviceExtension;
    PIRP Irp;
    UNREFERENCED_PARAMETER(Context);
    do {
        while ((Irp = IoCsqRemoveNextIrp(&Extension->State->Queue, NULL)) != NULL) {
            Serve(Extension, Irp);
        }
        InterlockedExchange(&Extension->Active, 0);
        Irp = IoCsqRemoveNextIrp(&Extension->State->Queue, NULL);
        if (Irp != NULL) {
            Serve(Extension, Irp);
        }
    } while (WRONG != 3 && Irp != NULL && BecomesActive(Extension));
#if WRONG != 1
    ExReleaseRundownProtection(&Extension->Rundown);
#endif
}

static VOID StartWorker(PEXTENSION Extension) {
    if (BecomesActive(Extension)) {
        if (ExAcquireRundownProtection(&Extension->Rundown)) {
            IoQueueWorkItem(Extension->Worker, WorkOff, DelayedWorkQueue, NULL);
        }
    }
}

/* ---- Dispatch routines ---- */
static NTSTATUS NTAPI Open(PDEVICE_OBJECT DeviceObject, PIRP Irp) {
    UNREFERENCED_PARAMETER(DeviceObject);
    return Finish(Irp, STATUS_SUCCESS, 0);
}

static NTSTATUS NTAPI ReadWrite(PDEVICE_OBJECT DeviceObject, PIRP Irp) {
    PEXTENSION Extension = DeviceObject->DeviceExtension;
    IoCsqInsertIrp(&Extension->State->Queue, Irp, NULL);
    StartWorker(Extension);
    return STATUS_PENDING;
}

static NTSTATUS NTAPI Cleanup(PDEVICE_OBJECT DeviceObject, PIRP Irp) {
    PEXTENSION Extension = DeviceObject->DeviceExtension;
    PIRP Waiting;
    while ((Waiting = IoCsqRemoveNextIrp(&Extension->State->Queue,
                                         IoGetCurrentIrpStackLocation(Irp)->FileObject)) != NULL) {
        Finish(Waiting, STATUS_CANCELLED, 0);
    }
    return Finish(Irp, STATUS_SUCCESS, 0);
}

static VOID FreeExtension(PDEVICE_OBJECT DeviceObject) {
    PEXTENSION Extension = DeviceObject->DeviceExtension;
    if (Extension->Worker != NULL) {
        IoFreeWorkItem(Extension->Worker);
    }
    if (Extension->State != NULL) {
        ExFreePoolWithTag(Extension->State, POOL_TAG);
    }
    IoDeleteDevice(DeviceObject);
}

static VOID NTAPI Unload(PDRIVER_OBJECT DriverObject) {
    PEXTENSION Extension = DriverObject->DeviceObject->DeviceExtension;
    ExWaitForRundownProtectionRelease(&Extension->Rundown);
    ExRundownCompleted(&Extension->Rundown);
    FreeExtension(DriverObject->DeviceObject);
}

NTSTATUS NTAPI DriverEntry(PDRIVER_OBJECT DriverObject, PUNICODE_STRING RegistryPath) {
    PDEVICE_OBJECT DeviceObject;
    PEXTENSION Extension;
    NTSTATUS Status = IoCreateDevice(DriverObject, sizeof(EXTENSION), NULL, FILE_DEVICE_UNKNOWN, 0,
                                     FALSE, &DeviceObject);
    UNREFERENCED_PARAMETER(RegistryPath);
    if (!NT_SUCCESS(Status)) {
        return Status;
    }
    Extension = DeviceObject->DeviceExtension;
    ExInitializeRundownProtection(&Extension->Rundown);
    Extension->Worker = IoAllocateWorkItem(DeviceObject);
    Extension->State =
        ExAllocatePoolWithTag(WRONG == 2 ? PagedPool : NonPagedPoolNx, sizeof(STATE), POOL_TAG);
    if (Extension->Worker == NULL || Extension->State == NULL) {
        FreeExtension(DeviceObject);
        return STATUS_INSUFFICIENT_RESOURCES;
    }
    KeInitializeSpinLock(&Extension->State->Lock);
    InitializeListHead(&Extension->State->List);
    IoCsqInitialize(&Extension->State->Queue, Insert, Remove, Peek, Lock, Unlock, Canceled);
    DeviceObject->Flags |= DO_BUFFERED_IO;
    DriverObject->DriverUnload = Unload;
    DriverObject->MajorFunction[IRP_MJ_CREATE] = DriverObject->MajorFunction[IRP_MJ_CLOSE] = Open;
    DriverObject->MajorFunction[IRP_MJ_READ] = DriverObject->MajorFunction[IRP_MJ_WRITE] =
        ReadWrite;
    DriverObject->MajorFunction[IRP_MJ_CLEANUP] = Cleanup;
    return STATUS_SUCCESS;
}
