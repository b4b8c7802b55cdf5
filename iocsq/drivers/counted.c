/* A semaphore and a mutex: the semaphore counts the reads that were queued, a thread serves one for
 * each count, and the queue's lock is a mutex, since all of its callers are at PASSIVE_LEVEL. */
#include "waiting.h"

typedef struct _EXTENSION {
    IO_CSQ Queue;
    LIST_ENTRY Irps; /* under Mutex */
    KMUTEX Mutex;
    KSEMAPHORE Queued;
    KEVENT Stop;
    PVOID Thread;
} EXTENSION, *PEXTENSION;

static PEXTENSION OfQueue(PIO_CSQ Csq) {
    return CONTAINING_RECORD(Csq, EXTENSION, Queue);
}

/* ---- The queue's callbacks that waiting.h has otherwise ---- */
static VOID NTAPI InsertCounted(PIO_CSQ Csq, PIRP Irp) {
    InsertTailList(&OfQueue(Csq)->Irps, &Irp->Tail.Overlay.ListEntry);
}

static PIRP NTAPI PeekCounted(PIO_CSQ Csq, PIRP Irp, PVOID PeekContext) {
    PLIST_ENTRY Head = &OfQueue(Csq)->Irps;
    PLIST_ENTRY Entry = Irp != NULL ? Irp->Tail.Overlay.ListEntry.Flink : Head->Flink;
    while (Entry != Head && PeekContext != NULL &&
           PeekContext != (PVOID)FileOf(CONTAINING_RECORD(Entry, IRP, Tail.Overlay.ListEntry))) {
        Entry = Entry->Flink;
    }
    return Entry == Head ? NULL : CONTAINING_RECORD(Entry, IRP, Tail.Overlay.ListEntry);
}

static VOID NTAPI LockMutex(PIO_CSQ Csq, PKIRQL Irql) {
    *Irql = PASSIVE_LEVEL;
    KeWaitForSingleObject(&OfQueue(Csq)->Mutex, Executive, KernelMode, FALSE, NULL);
}

static VOID NTAPI UnlockMutex(PIO_CSQ Csq, KIRQL Irql) {
    UNREFERENCED_PARAMETER(Irql);
    KeReleaseMutex(&OfQueue(Csq)->Mutex, FALSE);
}

/* ---- The thread, and the dispatch routines ---- */
static KSTART_ROUTINE Serve;
static VOID NTAPI Serve(PVOID StartContext) {
    PEXTENSION Extension = StartContext;
    PVOID Objects[2];
    Objects[0] = &Extension->Stop;
    Objects[1] = &Extension->Queued;
    while (KeWaitForMultipleObjects(2, Objects, WaitAny, Executive, KernelMode, FALSE, NULL,
                                    NULL) != STATUS_WAIT_0) {
        PIRP Irp = IoCsqRemoveNextIrp(&Extension->Queue, NULL);
        if (Irp != NULL) { /* none where it was cancelled meanwhile */
            Finish(Irp, STATUS_SUCCESS, 1);
        }
    }
    PsTerminateSystemThread(STATUS_SUCCESS);
}

static NTSTATUS NTAPI Read(PDEVICE_OBJECT DeviceObject, PIRP Irp) {
    PEXTENSION Extension = DeviceObject->DeviceExtension;
#if WRONG == 3
    /* The thread may look before the insert. */
    KeReleaseSemaphore(&Extension->Queued, IO_NO_INCREMENT, 1, FALSE);
    IoCsqInsertIrp(&Extension->Queue, Irp, NULL);
#else
    IoCsqInsertIrp(&Extension->Queue, Irp, NULL);
    KeReleaseSemaphore(&Extension->Queued, IO_NO_INCREMENT, 1, FALSE);
#endif
    return STATUS_PENDING;
}

static NTSTATUS NTAPI Cleanup(PDEVICE_OBJECT DeviceObject, PIRP Irp) {
    PEXTENSION Extension = DeviceObject->DeviceExtension;
    PIRP Waiting;
    while ((Waiting = IoCsqRemoveNextIrp(&Extension->Queue, FileOf(Irp))) != NULL) {
        Finish(Waiting, STATUS_CANCELLED, 0);
    }
#if WRONG == 2
    /* And then it isn't released. */
    KeWaitForSingleObject(&Extension->Mutex, Executive, KernelMode, FALSE, NULL);
#endif
    return Succeed(DeviceObject, Irp);
}

static VOID NTAPI Unload(PDRIVER_OBJECT DriverObject) {
    PEXTENSION Extension = DriverObject->DeviceObject->DeviceExtension;
    KeSetEvent(&Extension->Stop, IO_NO_INCREMENT, FALSE);
    KeWaitForSingleObject(Extension->Thread, Executive, KernelMode, FALSE, NULL);
    ObDereferenceObject(Extension->Thread);
    IoDeleteDevice(DriverObject->DeviceObject);
}

DRIVER_INITIALIZE DriverEntry;
NTSTATUS NTAPI DriverEntry(PDRIVER_OBJECT DriverObject, PUNICODE_STRING RegistryPath) {
    PDEVICE_OBJECT DeviceObject;
    PEXTENSION Extension;
    HANDLE Thread;
    NTSTATUS Status = MakeDevice(DriverObject, sizeof(EXTENSION), &DeviceObject);
    UNREFERENCED_PARAMETER(RegistryPath);
    if (!NT_SUCCESS(Status)) {
        return Status;
    }
    Extension = DeviceObject->DeviceExtension;
    InitializeListHead(&Extension->Irps);
    KeInitializeMutex(&Extension->Mutex, 0);
    KeInitializeSemaphore(&Extension->Queued, 0, WRONG == 1 ? 4 : MAXLONG);
    KeInitializeEvent(&Extension->Stop, NotificationEvent, FALSE);
    IoCsqInitialize(&Extension->Queue, InsertCounted, RemoveWaiting, PeekCounted, LockMutex,
                    UnlockMutex, CompleteWaiting);
    DriverObject->DriverUnload = Unload;
    DriverObject->MajorFunction[IRP_MJ_READ] = Read;
    DriverObject->MajorFunction[IRP_MJ_WRITE] = Succeed;
    DriverObject->MajorFunction[IRP_MJ_CLEANUP] = Cleanup;
    Status = PsCreateSystemThread(&Thread, THREAD_ALL_ACCESS, NULL, NULL, NULL, Serve, Extension);
    if (!NT_SUCCESS(Status)) {
        IoDeleteDevice(DeviceObject);
        return Status;
    }
    ObReferenceObjectByHandle(Thread, THREAD_ALL_ACCESS, NULL, KernelMode, &Extension->Thread,
                              NULL);
    ZwClose(Thread);
    return STATUS_SUCCESS;
}
