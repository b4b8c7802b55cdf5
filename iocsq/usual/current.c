/* A device that works at one request at a time, whose CsqPeekNextIrp, asked for any IRP, makes the
 * one that it returns the device's current IRP. So that changes under the queue's lock, and an IRP
 * that comes finds the device at work or idle. The policy says PeekHasEffects. */
#include <ntddk.h>
#include <csq.h>

#ifndef WRONG
#define WRONG 0
#endif

typedef struct _ONE_AT_A_TIME {
    IO_CSQ Csq;
    KSPIN_LOCK Lock;
    LIST_ENTRY Waiting; /* under Lock, with the next */
    PIRP Current;       /* null: the device is idle */
    KTIMER Timer;
    KDPC Done;
} ONE_AT_A_TIME, *PONE_AT_A_TIME;

DRIVER_INITIALIZE DriverEntry;
static DRIVER_DISPATCH CreateClose, ReadWrite, Cleanup;
static DRIVER_UNLOAD Unload;
static KDEFERRED_ROUTINE RequestDone;

static PONE_AT_A_TIME DeviceOf(PIO_CSQ Csq) {
    return CONTAINING_RECORD(Csq, ONE_AT_A_TIME, Csq);
}

static PFILE_OBJECT FileOf(PIRP Irp) {
    return IoGetCurrentIrpStackLocation(Irp)->FileObject;
}

static VOID Finish(PIRP Irp, NTSTATUS Status) {
    Irp->IoStatus.Status = Status;
    Irp->IoStatus.Information = 0;
    IoCompleteRequest(Irp, IO_NO_INCREMENT);
}

/* ---- The queue ---- */
/* InsertContext is a BOOLEAN that says afterwards whether the IRP is the current one: then it isn't
 * queued. */
static NTSTATUS NTAPI InsertUnlessIdle(PIO_CSQ Csq, PIRP Irp, PVOID InsertContext) {
    PONE_AT_A_TIME Device = DeviceOf(Csq);
    if (FileOf(Irp)->FsContext2 != NULL) {
        return STATUS_FILE_CLOSED;
    }
    if (Device->Current == NULL) {
        Device->Current = Irp;
        *(PBOOLEAN)InsertContext = TRUE;
        return STATUS_UNSUCCESSFUL;
    }
    InsertTailList(&Device->Waiting, &Irp->Tail.Overlay.ListEntry);
    return STATUS_SUCCESS;
}

static VOID NTAPI Remove(PIO_CSQ Csq, PIRP Irp) {
    UNREFERENCED_PARAMETER(Csq);
    RemoveEntryList(&Irp->Tail.Overlay.ListEntry);
}

static PIRP FindNext(PONE_AT_A_TIME Device, PIRP After, PVOID File) {
    PLIST_ENTRY Entry = After != NULL ? &After->Tail.Overlay.ListEntry : &Device->Waiting;
    while ((Entry = Entry->Flink) != &Device->Waiting) {
        PIRP Irp = CONTAINING_RECORD(Entry, IRP, Tail.Overlay.ListEntry);
        if (File == NULL || File == FileOf(Irp)) {
            return Irp;
        }
    }
    return NULL;
}

#if WRONG == 3 /* no fault, but more than iocsq undoes of a peek */
static volatile ULONG Peeks[2048];
static VOID NotePeek(VOID) {
    ULONG At;
    for (At = 0; At < ARRAYSIZE(Peeks); At++) {
        Peeks[At]++;
    }
}
#else
#define NotePeek() NOTHING
#endif

static PIRP NTAPI PeekAndMakeCurrent(PIO_CSQ Csq, PIRP Irp, PVOID PeekContext) {
    PIRP Next = FindNext(DeviceOf(Csq), Irp, PeekContext);
    if (PeekContext == NULL || WRONG == 1) { /* the cleanup's peeks leave the current IRP alone */
        DeviceOf(Csq)->Current = Next;
    }
    NotePeek();
    return Next;
}

static VOID NTAPI Acquire(PIO_CSQ Csq, PKIRQL Irql) {
    KeAcquireSpinLock(&DeviceOf(Csq)->Lock, Irql);
}

static VOID NTAPI Release(PIO_CSQ Csq, KIRQL Irql) {
    KeReleaseSpinLock(&DeviceOf(Csq)->Lock, Irql);
}

static VOID NTAPI FinishCanceled(PIO_CSQ Csq, PIRP Irp) {
    UNREFERENCED_PARAMETER(Csq);
    Finish(Irp, STATUS_CANCELLED);
}

/* ---- The device ---- */
static VOID Start(PONE_AT_A_TIME Device) {
    LARGE_INTEGER Soon;
    Soon.QuadPart = -800LL;
    KeSetTimer(&Device->Timer, Soon, &Device->Done);
}

static VOID NTAPI RequestDone(PKDPC Dpc, PVOID DeferredContext, PVOID SystemArgument1,
                              PVOID SystemArgument2) {
    PONE_AT_A_TIME Device = DeferredContext;
    PIRP Done = Device->Current; /* nobody else changes it, while it isn't null */
    PIRP Next;
    UNREFERENCED_PARAMETER(Dpc);
    UNREFERENCED_PARAMETER(SystemArgument1);
    UNREFERENCED_PARAMETER(SystemArgument2);
    ASSERT(Done != NULL);
    Next = IoCsqRemoveNextIrp(&Device->Csq, NULL);
    if (Next != NULL) {
        ASSERT(Next == Device->Current);
        Start(Device);
    }
    Finish(Done, STATUS_SUCCESS);
}

/* ---- Dispatch routines ---- */
static NTSTATUS NTAPI CreateClose(PDEVICE_OBJECT DeviceObject, PIRP Irp) {
    UNREFERENCED_PARAMETER(DeviceObject);
    Finish(Irp, STATUS_SUCCESS);
    return STATUS_SUCCESS;
}

static NTSTATUS NTAPI ReadWrite(PDEVICE_OBJECT DeviceObject, PIRP Irp) {
    PONE_AT_A_TIME Device = DeviceObject->DeviceExtension;
    BOOLEAN Starts = FALSE;
    NTSTATUS Status;
    IoMarkIrpPending(Irp); /* first, since it may be completed before the insert returns */
    Status = IoCsqInsertIrpEx(&Device->Csq, Irp, NULL, &Starts);
    if (Starts) {
        Start(Device);
    } else if (!NT_SUCCESS(Status)) {
        Finish(Irp, Status);
    }
    return STATUS_PENDING;
}

static NTSTATUS NTAPI Cleanup(PDEVICE_OBJECT DeviceObject, PIRP Irp) {
    PONE_AT_A_TIME Device = DeviceObject->DeviceExtension;
    PFILE_OBJECT File = FileOf(Irp);
    KIRQL Irql;
    PIRP Left;
    KeAcquireSpinLock(&Device->Lock, &Irql);
    File->FsContext2 = Device; /* from now on InsertUnlessIdle refuses its IRPs */
    KeReleaseSpinLock(&Device->Lock, Irql);
    while ((Left = IoCsqRemoveNextIrp(&Device->Csq, File)) != NULL) {
        Finish(Left, STATUS_CANCELLED);
    }
    Finish(Irp, STATUS_SUCCESS);
    return STATUS_SUCCESS;
}

static VOID NTAPI Unload(PDRIVER_OBJECT DriverObject) {
    KeFlushQueuedDpcs();
    IoDeleteDevice(DriverObject->DeviceObject);
}

NTSTATUS NTAPI DriverEntry(PDRIVER_OBJECT DriverObject, PUNICODE_STRING RegistryPath) {
    PDEVICE_OBJECT DeviceObject;
    PONE_AT_A_TIME Device;
    NTSTATUS Status = IoCreateDevice(DriverObject, sizeof(ONE_AT_A_TIME), NULL, FILE_DEVICE_UNKNOWN,
                                     0, FALSE, &DeviceObject);
    UNREFERENCED_PARAMETER(RegistryPath);
    if (!NT_SUCCESS(Status)) {
        return Status;
    }
    DeviceObject->Flags |= DO_BUFFERED_IO;
    Device = DeviceObject->DeviceExtension;
    Device->Current = NULL;
    KeInitializeSpinLock(&Device->Lock);
    InitializeListHead(&Device->Waiting);
    KeInitializeTimer(&Device->Timer);
    KeInitializeDpc(&Device->Done, RequestDone, Device);
    IoCsqInitializeEx(&Device->Csq, InsertUnlessIdle, Remove, PeekAndMakeCurrent, Acquire, Release,
                      FinishCanceled);
    DriverObject->DriverUnload = Unload;
    DriverObject->MajorFunction[IRP_MJ_CREATE] = CreateClose;
    DriverObject->MajorFunction[IRP_MJ_CLOSE] = CreateClose;
    DriverObject->MajorFunction[IRP_MJ_READ] = ReadWrite;
    DriverObject->MajorFunction[IRP_MJ_WRITE] = ReadWrite;
    DriverObject->MajorFunction[IRP_MJ_CLEANUP] = Cleanup;
    return STATUS_SUCCESS;
}
