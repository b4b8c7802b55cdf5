/* What the drivers of this folder share that show one thing each: a queue of IRPs in the order in
 * which they came, but for those that are put in front, one lock, and the usual peek context (any
 * IRP, or one of a file object). */
#ifndef WAITING_H
#define WAITING_H
#include <ntddk.h>
#include <csq.h>

#ifndef WRONG
#define WRONG 0
#endif

typedef struct _WAITING {
    IO_CSQ Queue;
    LIST_ENTRY Irps; /* under Lock */
    KSPIN_LOCK Lock;
} WAITING, *PWAITING;

static inline VOID Finish(PIRP Irp, NTSTATUS Status, ULONG_PTR Information) {
    Irp->IoStatus.Status = Status;
    Irp->IoStatus.Information = Information;
    IoCompleteRequest(Irp, IO_NO_INCREMENT);
}

static inline PFILE_OBJECT FileOf(PIRP Irp) {
    return IoGetCurrentIrpStackLocation(Irp)->FileObject;
}

/* ---- The queue's callbacks ---- */
static NTSTATUS NTAPI InsertWaiting(PIO_CSQ Csq, PIRP Irp, PVOID InsertContext) {
    PLIST_ENTRY Head = &CONTAINING_RECORD(Csq, WAITING, Queue)->Irps;
    if (FileOf(Irp) != NULL && FileOf(Irp)->FsContext != NULL) {
        return STATUS_FILE_CLOSED;
    }
    if (InsertContext != NULL) {
        InsertHeadList(Head, &Irp->Tail.Overlay.ListEntry);
    } else {
        InsertTailList(Head, &Irp->Tail.Overlay.ListEntry);
    }
    return STATUS_PENDING;
}

static VOID NTAPI RemoveWaiting(PIO_CSQ Csq, PIRP Irp) {
    UNREFERENCED_PARAMETER(Csq);
    RemoveEntryList(&Irp->Tail.Overlay.ListEntry);
}

static PIRP NTAPI PeekWaiting(PIO_CSQ Csq, PIRP Irp, PVOID PeekContext) {
    PLIST_ENTRY Head = &CONTAINING_RECORD(Csq, WAITING, Queue)->Irps;
    PLIST_ENTRY Entry = Irp != NULL ? Irp->Tail.Overlay.ListEntry.Flink : Head->Flink;
    for (; Entry != Head; Entry = Entry->Flink) {
        PIRP Next = CONTAINING_RECORD(Entry, IRP, Tail.Overlay.ListEntry);
        if (PeekContext == NULL || PeekContext == (PVOID)FileOf(Next)) {
            return Next;
        }
    }
    return NULL;
}

static VOID NTAPI LockWaiting(PIO_CSQ Csq, PKIRQL Irql) {
    KeAcquireSpinLock(&CONTAINING_RECORD(Csq, WAITING, Queue)->Lock, Irql);
}

static VOID NTAPI UnlockWaiting(PIO_CSQ Csq, KIRQL Irql) {
    KeReleaseSpinLock(&CONTAINING_RECORD(Csq, WAITING, Queue)->Lock, Irql);
}

static inline VOID NTAPI CompleteWaiting(PIO_CSQ Csq, PIRP Irp) {
    UNREFERENCED_PARAMETER(Csq);
    Finish(Irp, STATUS_CANCELLED, 0);
}

/* ---- What the drivers call ---- */
static inline VOID InitializeWaiting(PWAITING Waiting, PIO_CSQ_COMPLETE_CANCELED_IRP Complete) {
    InitializeListHead(&Waiting->Irps);
    KeInitializeSpinLock(&Waiting->Lock);
    IoCsqInitializeEx(&Waiting->Queue, InsertWaiting, RemoveWaiting, PeekWaiting, LockWaiting,
                      UnlockWaiting, Complete);
}

/* Queues an IRP, and answers what its dispatch routine has to. */
static inline NTSTATUS Wait(PWAITING Waiting, PIRP Irp) {
    NTSTATUS Status = IoCsqInsertIrpEx(&Waiting->Queue, Irp, NULL, NULL);
    if (!NT_SUCCESS(Status)) {
        Finish(Irp, Status, 0);
    }
    return Status;
}

/* Puts an IRP in front that was removed: it is the first again. */
static inline VOID PutBackInFront(PWAITING Waiting, PIRP Irp) {
    NTSTATUS Status = IoCsqInsertIrpEx(&Waiting->Queue, Irp, NULL, Waiting);
    if (!NT_SUCCESS(Status)) {
        Finish(Irp, Status, 0);
    }
}

/* The first half of a cleanup: from now on InsertWaiting refuses. */
static inline VOID CloseFile(PWAITING Waiting, PFILE_OBJECT File) {
    KIRQL Irql;
    KeAcquireSpinLock(&Waiting->Lock, &Irql);
    File->FsContext = Waiting;
    KeReleaseSpinLock(&Waiting->Lock, Irql);
}

static inline VOID CleanUp(PWAITING Waiting, PFILE_OBJECT File) {
    PIRP Irp;
    CloseFile(Waiting, File);
    while ((Irp = IoCsqRemoveNextIrp(&Waiting->Queue, File)) != NULL) {
        Finish(Irp, STATUS_CANCELLED, 0);
    }
}

static inline NTSTATUS NTAPI Succeed(PDEVICE_OBJECT DeviceObject, PIRP Irp) {
    UNREFERENCED_PARAMETER(DeviceObject);
    Finish(Irp, STATUS_SUCCESS, 0);
    return STATUS_SUCCESS;
}

/* Fills in what the drivers have in common. */
static inline NTSTATUS MakeDevice(PDRIVER_OBJECT DriverObject, ULONG ExtensionSize,
                                  PDEVICE_OBJECT *DeviceObject) {
    NTSTATUS Status;
    DriverObject->MajorFunction[IRP_MJ_CREATE] = Succeed;
    DriverObject->MajorFunction[IRP_MJ_CLOSE] = Succeed;
    Status = IoCreateDevice(DriverObject, ExtensionSize, NULL, FILE_DEVICE_UNKNOWN, 0, FALSE,
                            DeviceObject);
    if (NT_SUCCESS(Status)) {
        (*DeviceObject)->Flags |= DO_BUFFERED_IO;
    }
    return Status;
}

#endif
