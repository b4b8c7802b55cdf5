/* Inverted calls: an application keeps device controls pending, and the driver completes one for
 * each event. Events that come while none is pending are stored. The answer goes to pages of the
 * application (METHOD_OUT_DIRECT). */
#include <wdm.h>
#include <csq.h>

#ifndef WRONG
#define WRONG 0
#endif

#define IOCTL_NEXT_EVENT CTL_CODE(FILE_DEVICE_UNKNOWN, 0x900, METHOD_OUT_DIRECT, FILE_READ_DATA)
#define IOCTL_RAISE_EVENT CTL_CODE(FILE_DEVICE_UNKNOWN, 0x901, METHOD_BUFFERED, FILE_WRITE_DATA)
#define EVENT_TAG 'tnvE'
#define MOST_EVENTS 8

typedef struct _EVENT {
    LIST_ENTRY Link;
    UCHAR Kind;
} EVENT, *PEVENT;
C_ASSERT(FIELD_OFFSET(EVENT, Link) == 0);

typedef struct _EXTENSION {
    IO_CSQ Csq;
    LIST_ENTRY Calls; /* under CallsLock */
    KSPIN_LOCK CallsLock;
    LIST_ENTRY Events; /* under EventsLock */
    KSPIN_LOCK EventsLock;
    LONG EventCount;
    NPAGED_LOOKASIDE_LIST EventMemory;
    KGUARDED_MUTEX Delivering;
} EXTENSION, *PEXTENSION;

DRIVER_INITIALIZE DriverEntry;
static DRIVER_UNLOAD EvtUnload;
static DRIVER_DISPATCH EvtOpen, EvtControl, EvtCleanup;

static NTSTATUS Complete(_In_ PIRP Irp, _In_ NTSTATUS Status, _In_ ULONG_PTR Information) {
    Irp->IoStatus.Status = Status;
    Irp->IoStatus.Information = Information;
    IoCompleteRequest(Irp, IO_NO_INCREMENT);
    return Status;
}

/* ---- The queue ---- */
static NTSTATUS NTAPI EvtInsert(_In_ PIO_CSQ Csq, _In_ PIRP Irp, _In_opt_ PVOID Context) {
    UNREFERENCED_PARAMETER(Context);
    if (IoGetCurrentIrpStackLocation(Irp)->FileObject->FsContext2 != NULL) {
        return STATUS_FILE_CLOSED;
    }
    InsertTailList(&CONTAINING_RECORD(Csq, EXTENSION, Csq)->Calls, &Irp->Tail.Overlay.ListEntry);
    return STATUS_SUCCESS;
}

static VOID NTAPI EvtRemove(_In_ PIO_CSQ Csq, _In_ PIRP Irp) {
    UNREFERENCED_PARAMETER(Csq);
    RemoveEntryList(&Irp->Tail.Overlay.ListEntry);
    InitializeListHead(&Irp->Tail.Overlay.ListEntry);
}

static PIRP NTAPI EvtPeek(_In_ PIO_CSQ Csq, _In_opt_ PIRP Irp, _In_opt_ PVOID Context) {
    PEXTENSION Extension = CONTAINING_RECORD(Csq, EXTENSION, Csq);
    PLIST_ENTRY Entry;
    for (Entry = Irp ? Irp->Tail.Overlay.ListEntry.Flink : Extension->Calls.Flink;
         Entry != &Extension->Calls; Entry = Entry->Flink) {
        PIRP Call = CONTAINING_RECORD(Entry, IRP, Tail.Overlay.ListEntry);
        if (!Context || (PVOID)IoGetCurrentIrpStackLocation(Call)->FileObject == Context) {
            return Call;
        }
    }
    return NULL;
}

_IRQL_raises_(DISPATCH_LEVEL) _Acquires_lock_(CONTAINING_RECORD(Csq, EXTENSION, Csq)->CallsLock)
static VOID NTAPI EvtLock(_In_ PIO_CSQ Csq, _Out_ _At_(*Irql, _Post_ _IRQL_saves_) PKIRQL Irql) {
    KeAcquireSpinLock(&CONTAINING_RECORD(Csq, EXTENSION, Csq)->CallsLock, Irql);
}

_IRQL_requires_(DISPATCH_LEVEL) _Releases_lock_(CONTAINING_RECORD(Csq, EXTENSION, Csq)->CallsLock)
static VOID NTAPI EvtUnlock(_In_ PIO_CSQ Csq, _In_ _IRQL_restores_ KIRQL Irql) {
    KeReleaseSpinLock(&CONTAINING_RECORD(Csq, EXTENSION, Csq)->CallsLock, Irql);
}

static VOID NTAPI EvtCanceled(_In_ PIO_CSQ Csq, _In_ PIRP Irp) {
#if WRONG == 1
    PVOID Note = ExAllocatePoolWithTag(PagedPool, 16, EVENT_TAG); /* where a cancel may come at
                                                                   * DISPATCH_LEVEL */
    if (Note) {
        ExFreePoolWithTag(Note, EVENT_TAG);
    }
#endif
    UNREFERENCED_PARAMETER(Csq);
    Complete(Irp, STATUS_CANCELLED, 0);
}

/* ---- Events ---- */
static VOID FreeEvent(_In_ PEXTENSION Extension, _In_ PEVENT Event) {
    InterlockedDecrement(&Extension->EventCount);
    ExFreeToNPagedLookasideList(&Extension->EventMemory, Event);
}

static VOID Answer(_In_ PIRP Call, _In_ UCHAR Kind) {
    PUCHAR Bytes = MmGetSystemAddressForMdlSafe(Call->MdlAddress, NormalPagePriority);
    if (Bytes == NULL) {
        Complete(Call, STATUS_INSUFFICIENT_RESOURCES, 0);
        return;
    }
    Bytes[0] = Kind;
    Complete(Call, STATUS_SUCCESS, sizeof(Kind));
#if WRONG == 2
    Bytes[0] = 0; /* of pages that are the application's again */
#endif
}

/* Pairs events with calls; one thread at a time, so that none is lost between the two lists. */
static VOID Deliver(_In_ PEXTENSION Extension) {
    PLIST_ENTRY Entry;
    PIRP Call;
    KeAcquireGuardedMutex(&Extension->Delivering);
    while ((Entry = ExInterlockedRemoveHeadList(&Extension->Events, &Extension->EventsLock)) !=
           NULL) {
        PEVENT Event = CONTAINING_RECORD(Entry, EVENT, Link);
        Call = IoCsqRemoveNextIrp(&Extension->Csq, NULL);
        if (Call == NULL) {
            ExInterlockedInsertHeadList(&Extension->Events, &Event->Link, &Extension->EventsLock);
            break;
        }
        Answer(Call, Event->Kind);
        FreeEvent(Extension, Event);
    }
    KeReleaseGuardedMutex(&Extension->Delivering);
}

/* A call may wait while no event is stored. */
BOOLEAN MayWait(_In_ PIRP Irp);
BOOLEAN MayWait(_In_ PIRP Irp) {
    PEXTENSION Extension = IoGetCurrentIrpStackLocation(Irp)->DeviceObject->DeviceExtension;
    return IsListEmpty(&Extension->Events);
}

_Must_inspect_result_ static NTSTATUS Store(_In_ PEXTENSION Extension,
                                            _In_reads_bytes_(Length) const UCHAR *Bytes,
                                            _In_ ULONG Length) {
    PEVENT Event;
    if (Length < sizeof(UCHAR)) {
        return STATUS_BUFFER_TOO_SMALL;
    }
    if (InterlockedIncrement(&Extension->EventCount) > MOST_EVENTS) {
        InterlockedDecrement(&Extension->EventCount);
        return STATUS_DEVICE_BUSY;
    }
    Event = ExAllocateFromNPagedLookasideList(&Extension->EventMemory);
    if (Event == NULL) {
        InterlockedDecrement(&Extension->EventCount);
        return STATUS_NO_MEMORY;
    }
    Event->Kind = Bytes[0];
    ExInterlockedInsertTailList(&Extension->Events, &Event->Link, &Extension->EventsLock);
    return STATUS_SUCCESS;
}

/* ---- Dispatch routines ---- */
static NTSTATUS Wait(_In_ PEXTENSION Extension, _In_ PIRP Irp, _In_ ULONG Length) {
    NTSTATUS Status;
    if (Length < sizeof(UCHAR)) {
        return Complete(Irp, STATUS_BUFFER_TOO_SMALL, 0);
    }
    Status = IoCsqInsertIrpEx(&Extension->Csq, Irp, NULL, NULL);
    if (!NT_SUCCESS(Status)) {
        return Complete(Irp, Status, 0);
    }
    Deliver(Extension);
    return STATUS_PENDING;
}

static NTSTATUS NTAPI EvtControl(_In_ PDEVICE_OBJECT DeviceObject, _Inout_ PIRP Irp) {
    PEXTENSION Extension = DeviceObject->DeviceExtension;
    PIO_STACK_LOCATION Stack = IoGetCurrentIrpStackLocation(Irp);
    NTSTATUS Status = STATUS_INVALID_DEVICE_REQUEST;
    switch (Stack->Parameters.DeviceIoControl.IoControlCode) {
    case IOCTL_NEXT_EVENT:
        return Wait(Extension, Irp, Stack->Parameters.DeviceIoControl.OutputBufferLength);
    case IOCTL_RAISE_EVENT:
        Status = Store(Extension, Irp->AssociatedIrp.SystemBuffer,
                       Stack->Parameters.DeviceIoControl.InputBufferLength);
        if (NT_SUCCESS(Status)) {
            Deliver(Extension);
        }
        break;
    default: NOTHING;
    }
    return Complete(Irp, Status, 0);
}

static NTSTATUS NTAPI EvtOpen(_In_ PDEVICE_OBJECT DeviceObject, _Inout_ PIRP Irp) {
    UNREFERENCED_PARAMETER(DeviceObject);
    return Complete(Irp, STATUS_SUCCESS, 0);
}

static NTSTATUS NTAPI EvtCleanup(_In_ PDEVICE_OBJECT DeviceObject, _Inout_ PIRP Irp) {
    PEXTENSION Extension = DeviceObject->DeviceExtension;
    PFILE_OBJECT File = IoGetCurrentIrpStackLocation(Irp)->FileObject;
    KLOCK_QUEUE_HANDLE Handle;
    PIRP Call;
    KeAcquireInStackQueuedSpinLock(&Extension->CallsLock, &Handle);
    File->FsContext2 = Extension;
    KeReleaseInStackQueuedSpinLock(&Handle);
    while ((Call = IoCsqRemoveNextIrp(&Extension->Csq, File)) != NULL) {
        Complete(Call, STATUS_CANCELLED, 0);
    }
    return Complete(Irp, STATUS_SUCCESS, 0);
}

static VOID NTAPI EvtUnload(_In_ PDRIVER_OBJECT DriverObject) {
    PEXTENSION Extension = DriverObject->DeviceObject->DeviceExtension;
    while (!IsListEmpty(&Extension->Events)) {
        FreeEvent(Extension, CONTAINING_RECORD(RemoveHeadList(&Extension->Events), EVENT, Link));
    }
#if WRONG != 3
    ExDeleteNPagedLookasideList(&Extension->EventMemory);
#endif
    IoDeleteDevice(DriverObject->DeviceObject);
}

NTSTATUS NTAPI DriverEntry(_In_ PDRIVER_OBJECT DriverObject, _In_ PUNICODE_STRING RegistryPath) {
    UNICODE_STRING Name = RTL_CONSTANT_STRING(L"\\Device\\Events");
    PDEVICE_OBJECT Device;
    PEXTENSION Extension;
    NTSTATUS Status = IoCreateDevice(DriverObject, sizeof(*Extension), &Name, FILE_DEVICE_UNKNOWN,
                                     FILE_DEVICE_SECURE_OPEN, FALSE, &Device);
    UNREFERENCED_PARAMETER(RegistryPath);
    if (!NT_SUCCESS(Status)) {
        return Status;
    }
    Extension = Device->DeviceExtension;
    InitializeListHead(&Extension->Calls);
    InitializeListHead(&Extension->Events);
    KeInitializeSpinLock(&Extension->CallsLock);
    KeInitializeSpinLock(&Extension->EventsLock);
    KeInitializeGuardedMutex(&Extension->Delivering);
    ExInitializeNPagedLookasideList(&Extension->EventMemory, NULL, NULL, 0, sizeof(EVENT),
                                    EVENT_TAG, 0);
    IoCsqInitializeEx(&Extension->Csq, EvtInsert, EvtRemove, EvtPeek, EvtLock, EvtUnlock,
                      EvtCanceled);
    DriverObject->DriverUnload = EvtUnload;
    DriverObject->MajorFunction[IRP_MJ_CREATE] = DriverObject->MajorFunction[IRP_MJ_CLOSE] =
        EvtOpen;
    DriverObject->MajorFunction[IRP_MJ_DEVICE_CONTROL] = EvtControl;
    DriverObject->MajorFunction[IRP_MJ_CLEANUP] = EvtCleanup;
    return STATUS_SUCCESS;
}
