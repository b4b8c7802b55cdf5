/* The queue's lock is a fast mutex, so all that touches the queue runs below DISPATCH_LEVEL, its
 * cancels too. The IRQL that CsqAcquireLock passes on isn't used. */
#include "unusual.h"

typedef struct _EXTENSION {
    IO_CSQ Queue;
    FAST_MUTEX Mutex;
    LIST_ENTRY Reads; /* under Mutex */
} EXTENSION, *PEXTENSION;

DRIVER_INITIALIZE DriverEntry;
static DRIVER_DISPATCH Cleanup;

static PEXTENSION Of(PIO_CSQ Csq) {
    return CONTAINING_RECORD(Csq, EXTENSION, Queue);
}

static NTSTATUS NTAPI Insert(PIO_CSQ Csq, PIRP Irp, PVOID InsertContext) {
    UNREFERENCED_PARAMETER(InsertContext);
    if (IsClosed(Irp)) {
        return STATUS_FILE_CLOSED;
    }
    InsertTailList(&Of(Csq)->Reads, &Irp->Tail.Overlay.ListEntry);
    return STATUS_PENDING;
}

static PIRP NTAPI Peek(PIO_CSQ Csq, PIRP Irp, PVOID PeekContext) {
    PLIST_ENTRY Head = &Of(Csq)->Reads;
    PLIST_ENTRY Entry = Irp == NULL ? Head->Flink : Irp->Tail.Overlay.ListEntry.Flink;
    while (Entry != Head && PeekContext != NULL && PeekContext != FileOf(OfEntry(Entry))) {
        Entry = Entry->Flink;
    }
    return Entry == Head ? NULL : OfEntry(Entry);
}

static VOID NTAPI Acquire(PIO_CSQ Csq, PKIRQL Irql) {
    UNREFERENCED_PARAMETER(Irql);
    ExAcquireFastMutex(&Of(Csq)->Mutex);
}

static VOID NTAPI Release(PIO_CSQ Csq, KIRQL Irql) {
    UNREFERENCED_PARAMETER(Irql);
    ExReleaseFastMutex(&Of(Csq)->Mutex);
}

static NTSTATUS NTAPI Cleanup(PDEVICE_OBJECT DeviceObject, PIRP Irp) {
    PEXTENSION Extension = DeviceObject->DeviceExtension;
    ExAcquireFastMutex(&Extension->Mutex);
    FileOf(Irp)->FsContext = Extension;
    ExReleaseFastMutex(&Extension->Mutex);
    return CleanQueue(&Extension->Queue, Irp);
}

NTSTATUS NTAPI DriverEntry(PDRIVER_OBJECT DriverObject, PUNICODE_STRING RegistryPath) {
    PEXTENSION Extension = Begin(DriverObject, sizeof(EXTENSION), QueueRead, WriteToQueue,
                                 Cleanup);
    UNREFERENCED_PARAMETER(RegistryPath);
    if (Extension == NULL) {
        return STATUS_INSUFFICIENT_RESOURCES;
    }
    ExInitializeFastMutex(&Extension->Mutex);
    InitializeListHead(&Extension->Reads);
    return IoCsqInitializeEx(&Extension->Queue, Insert, RemoveWaiting, Peek, Acquire, Release,
                             CompleteWaiting);
}
