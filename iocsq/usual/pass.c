/* A filter of a plug and play device: reads wait until a write lets them go on to the device below,
 * which its work item sends them to. The device is added, started and removed by requests. */
#include <wdm.h>
#include <csq.h>
#include <initguid.h>

#ifndef WRONG
#define WRONG 0
#endif

#define FILTER_TAG 'tliF'

typedef struct _FILTER {
    PDEVICE_OBJECT Lower;
    IO_REMOVE_LOCK RemoveLock;
    IO_CSQ Held;
    LIST_ENTRY HeldList; /* under HeldLock */
    KSPIN_LOCK HeldLock;
    PIO_WORKITEM Sender; /* in memory of the filter's own */
    volatile LONG SenderRuns;
    volatile LONG ToSend;
} FILTER, *PFILTER;

DRIVER_INITIALIZE DriverEntry;
DRIVER_ADD_DEVICE FilterAddDevice;
DRIVER_DISPATCH FilterPnp;
static IO_COMPLETION_ROUTINE FilterDone;
static IO_WORKITEM_ROUTINE FilterSend;

static NTSTATUS FilterComplete(PIRP Irp, NTSTATUS Status) {
    Irp->IoStatus.Status = Status;
    Irp->IoStatus.Information = 0;
    IoCompleteRequest(Irp, IO_NO_INCREMENT);
    return Status;
}

/* ---- The queue of what is held ---- */
static NTSTATUS NTAPI HeldInsert(PIO_CSQ Csq, PIRP Irp, PVOID InsertContext) {
    UNREFERENCED_PARAMETER(InsertContext);
    if (IoGetCurrentIrpStackLocation(Irp)->FileObject->FsContext != NULL) {
        return STATUS_FILE_CLOSED;
    }
    InsertTailList(&CONTAINING_RECORD(Csq, FILTER, Held)->HeldList, &Irp->Tail.Overlay.ListEntry);
#if WRONG == 1
    IoSetNextIrpStackLocation(Irp); /* before it goes down */
#endif
    return STATUS_PENDING;
}

static VOID NTAPI HeldRemove(PIO_CSQ Csq, PIRP Irp) {
    UNREFERENCED_PARAMETER(Csq);
    RemoveEntryList(&Irp->Tail.Overlay.ListEntry);
}

static PIRP NTAPI HeldPeek(PIO_CSQ Csq, PIRP Irp, PVOID PeekContext) {
    PLIST_ENTRY List = &CONTAINING_RECORD(Csq, FILTER, Held)->HeldList;
    PLIST_ENTRY Entry = Irp ? Irp->Tail.Overlay.ListEntry.Flink : List->Flink;
    PIRP Found = NULL;
    for (; Entry != List && Found == NULL; Entry = Entry->Flink) {
        Found = CONTAINING_RECORD(Entry, IRP, Tail.Overlay.ListEntry);
        if (PeekContext && PeekContext != (PVOID)IoGetCurrentIrpStackLocation(Found)->FileObject) {
            Found = NULL;
        }
    }
    return Found;
}

static VOID NTAPI HeldLock(PIO_CSQ Csq, PKIRQL Irql) {
    KeAcquireSpinLock(&CONTAINING_RECORD(Csq, FILTER, Held)->HeldLock, Irql);
}

static VOID NTAPI HeldUnlock(PIO_CSQ Csq, KIRQL Irql) {
    KeReleaseSpinLock(&CONTAINING_RECORD(Csq, FILTER, Held)->HeldLock, Irql);
}

static VOID NTAPI HeldCanceled(PIO_CSQ Csq, PIRP Irp) {
    UNREFERENCED_PARAMETER(Csq);
    FilterComplete(Irp, STATUS_CANCELLED);
}

/* ---- To the device below ---- */
static NTSTATUS NTAPI FilterDone(PDEVICE_OBJECT DeviceObject, PIRP Irp, PVOID Context) {
    UNREFERENCED_PARAMETER(DeviceObject);
    if (Irp->PendingReturned) {
        IoMarkIrpPending(Irp);
    }
    IoReleaseRemoveLock(&((PFILTER)Context)->RemoveLock, Irp);
    return STATUS_CONTINUE_COMPLETION;
}

static NTSTATUS SendDown(PFILTER Filter, PIRP Irp) {
    NTSTATUS Status = IoAcquireRemoveLock(&Filter->RemoveLock, Irp);
    if (!NT_SUCCESS(Status)) {
        return FilterComplete(Irp, Status);
    }
    IoCopyCurrentIrpStackLocationToNext(Irp);
    IoSetCompletionRoutine(Irp, FilterDone, Filter, TRUE, TRUE, TRUE);
    return IoCallDriver(Filter->Lower, Irp);
}

static VOID NTAPI FilterSend(PDEVICE_OBJECT DeviceObject, PVOID Context) {
    PFILTER Filter = Context;
    UNREFERENCED_PARAMETER(DeviceObject);
    do {
        PIRP Irp;
        LONG Count = InterlockedExchange(&Filter->ToSend, 0);
        while (Count-- > 0 && (Irp = IoCsqRemoveNextIrp(&Filter->Held, NULL)) != NULL) {
            SendDown(Filter, Irp);
        }
        InterlockedExchange(&Filter->SenderRuns, 0);
    } while (InterlockedCompareExchange(&Filter->ToSend, 0, 0) > 0 &&
             InterlockedCompareExchange(&Filter->SenderRuns, 1, 0) == 0);
    IoReleaseRemoveLock(&Filter->RemoveLock, Filter->Sender);
}

/* ---- Dispatch routines ---- */
static NTSTATUS NTAPI FilterPass(PDEVICE_OBJECT DeviceObject, PIRP Irp) {
    PFILTER Filter = DeviceObject->DeviceExtension;
    IoSkipCurrentIrpStackLocation(Irp);
    return IoCallDriver(Filter->Lower, Irp);
}

static NTSTATUS NTAPI FilterPower(PDEVICE_OBJECT DeviceObject, PIRP Irp) {
    PFILTER Filter = DeviceObject->DeviceExtension;
    PoStartNextPowerIrp(Irp);
    IoSkipCurrentIrpStackLocation(Irp);
    return PoCallDriver(Filter->Lower, Irp);
}

static NTSTATUS NTAPI FilterRead(PDEVICE_OBJECT DeviceObject, PIRP Irp) {
    PFILTER Filter = DeviceObject->DeviceExtension;
    NTSTATUS Status = IoCsqInsertIrpEx(&Filter->Held, Irp, NULL, NULL);
    return NT_SUCCESS(Status) ? STATUS_PENDING : FilterComplete(Irp, Status);
}

static NTSTATUS NTAPI FilterWrite(PDEVICE_OBJECT DeviceObject, PIRP Irp) {
    PFILTER Filter = DeviceObject->DeviceExtension;
    InterlockedIncrement(&Filter->ToSend);
    if (InterlockedCompareExchange(&Filter->SenderRuns, 1, 0) == 0 &&
        NT_SUCCESS(IoAcquireRemoveLock(&Filter->RemoveLock, Filter->Sender))) {
        IoQueueWorkItem(Filter->Sender, FilterSend, DelayedWorkQueue, Filter);
    }
    return FilterComplete(Irp, STATUS_SUCCESS);
}

static NTSTATUS NTAPI FilterCleanup(PDEVICE_OBJECT DeviceObject, PIRP Irp) {
    PFILTER Filter = DeviceObject->DeviceExtension;
    PFILE_OBJECT File = IoGetCurrentIrpStackLocation(Irp)->FileObject;
    KIRQL Irql;
    PIRP Held;
    KeAcquireSpinLock(&Filter->HeldLock, &Irql);
    File->FsContext = Filter;
    KeReleaseSpinLock(&Filter->HeldLock, Irql);
    while ((Held = IoCsqRemoveNextIrp(&Filter->Held, File)) != NULL) {
        FilterComplete(Held, STATUS_CANCELLED);
    }
    return FilterPass(DeviceObject, Irp);
}

/* ---- Plug and play ---- */
static NTSTATUS RemoveFilter(PDEVICE_OBJECT DeviceObject, PIRP Irp) {
    PFILTER Filter = DeviceObject->DeviceExtension;
    PIO_WORKITEM Sender = Filter->Sender;
    PDEVICE_OBJECT Lower = Filter->Lower;
    NTSTATUS Status;
    IoReleaseRemoveLockAndWait(&Filter->RemoveLock, Irp);
    Irp->IoStatus.Status = STATUS_SUCCESS;
    IoSkipCurrentIrpStackLocation(Irp);
    Status = IoCallDriver(Lower, Irp);
    IoDetachDevice(Lower);
#if WRONG == 2
    IoFreeWorkItem(Sender); /* whose memory is the filter's */
#else
    IoUninitializeWorkItem(Sender);
#endif
    ExFreePoolWithTag(Sender, FILTER_TAG);
    IoDeleteDevice(DeviceObject);
    return Status;
}

_Use_decl_annotations_ NTSTATUS NTAPI FilterPnp(PDEVICE_OBJECT DeviceObject, PIRP Irp) {
    PFILTER Filter = DeviceObject->DeviceExtension;
    NTSTATUS Status = IoAcquireRemoveLock(&Filter->RemoveLock, Irp);
    PAGED_CODE();
    if (!NT_SUCCESS(Status)) {
        return FilterComplete(Irp, Status);
    }
    switch (IoGetCurrentIrpStackLocation(Irp)->MinorFunction) {
    case IRP_MN_REMOVE_DEVICE: return RemoveFilter(DeviceObject, Irp);
    case IRP_MN_START_DEVICE:
        Status = IoForwardIrpSynchronously(Filter->Lower, Irp) ? Irp->IoStatus.Status
                                                               : STATUS_UNSUCCESSFUL;
        Status = FilterComplete(Irp, Status);
        break;
    default:
        IoSkipCurrentIrpStackLocation(Irp);
        Status = IoCallDriver(Filter->Lower, Irp);
    }
    IoReleaseRemoveLock(&Filter->RemoveLock, Irp);
    return Status;
}

static VOID InitializeFilter(PFILTER Filter) {
    IoInitializeRemoveLock(&Filter->RemoveLock, FILTER_TAG, 0, 0);
    KeInitializeSpinLock(&Filter->HeldLock);
    InitializeListHead(&Filter->HeldList);
    IoCsqInitializeEx(&Filter->Held, HeldInsert, HeldRemove, HeldPeek, HeldLock, HeldUnlock,
                      HeldCanceled);
}

_Use_decl_annotations_ NTSTATUS NTAPI FilterAddDevice(PDRIVER_OBJECT DriverObject,
                                                      PDEVICE_OBJECT PhysicalDeviceObject) {
    PDEVICE_OBJECT DeviceObject;
    PFILTER Filter;
    NTSTATUS Status = IoCreateDevice(DriverObject, sizeof(FILTER), NULL, FILE_DEVICE_UNKNOWN, 0,
                                     FALSE, &DeviceObject);
    if (!NT_SUCCESS(Status)) {
        return Status;
    }
    Filter = DeviceObject->DeviceExtension;
    InitializeFilter(Filter);
    Filter->Sender = ExAllocatePoolWithTag(NonPagedPoolNx, IoSizeofWorkItem(), FILTER_TAG);
    Filter->Lower =
        Filter->Sender ? IoAttachDeviceToDeviceStack(DeviceObject, PhysicalDeviceObject) : NULL;
    if (Filter->Lower == NULL) {
        if (Filter->Sender) {
            ExFreePoolWithTag(Filter->Sender, FILTER_TAG);
        }
        IoDeleteDevice(DeviceObject);
        return STATUS_NO_SUCH_DEVICE;
    }
    IoInitializeWorkItem(DeviceObject, Filter->Sender);
    DeviceObject->Flags |=
        Filter->Lower->Flags & (DO_BUFFERED_IO | DO_DIRECT_IO | DO_POWER_PAGABLE);
    DeviceObject->Flags &= ~(ULONG)DO_DEVICE_INITIALIZING;
    return STATUS_SUCCESS;
}

static VOID NTAPI FilterUnload(PDRIVER_OBJECT DriverObject) {
    NT_ASSERT(DriverObject->DeviceObject == NULL);
    UNREFERENCED_PARAMETER(DriverObject);
}

NTSTATUS NTAPI DriverEntry(PDRIVER_OBJECT DriverObject, PUNICODE_STRING RegistryPath) {
    ULONG Major;
    UNREFERENCED_PARAMETER(RegistryPath);
    for (Major = 0; Major < ARRAYSIZE(DriverObject->MajorFunction); Major++) {
        DriverObject->MajorFunction[Major] = FilterPass;
    }
    DriverObject->MajorFunction[IRP_MJ_PNP] = FilterPnp;
    DriverObject->MajorFunction[IRP_MJ_POWER] = FilterPower;
    DriverObject->MajorFunction[IRP_MJ_READ] = FilterRead;
    DriverObject->MajorFunction[IRP_MJ_WRITE] = FilterWrite;
    DriverObject->MajorFunction[IRP_MJ_CLEANUP] = FilterCleanup;
    DriverObject->DriverExtension->AddDevice = FilterAddDevice;
    DriverObject->DriverUnload = FilterUnload;
    return STATUS_SUCCESS;
}
