/* What the drivers of this folder share. They have no IO_CSQ: each sets the cancel routines of its
 * requests itself, by IoSetCancelRoutine. WRONG says where a driver is wrong. */
#ifndef DEVICE_H
#define DEVICE_H
#include <ntddk.h>

#ifndef WRONG
#define WRONG 0
#endif

static inline PFILE_OBJECT FileOf(PIRP Irp) {
    return IoGetCurrentIrpStackLocation(Irp)->FileObject;
}

static NTSTATUS Complete(PIRP Irp, NTSTATUS Status) {
    Irp->IoStatus.Status = Status;
    Irp->IoStatus.Information = 0;
    IoCompleteRequest(Irp, IO_NO_INCREMENT);
    return Status;
}

/* A dispatch routine that has nothing to do. */
static NTSTATUS NTAPI Succeed(PDEVICE_OBJECT DeviceObject, PIRP Irp) {
    UNREFERENCED_PARAMETER(DeviceObject);
    return Complete(Irp, STATUS_SUCCESS);
}

/* Completes a read that waited, if there is one, and the write for which it was taken. */
static inline NTSTATUS CompleteBoth(PIRP Waiting, PIRP Irp) {
    if (Waiting != NULL) {
        Complete(Waiting, STATUS_SUCCESS);
    }
    return Complete(Irp, STATUS_SUCCESS);
}

/* The first half of a cleanup: a request that comes late doesn't wait any more. */
static inline VOID MarkClosed(PKSPIN_LOCK Lock, PFILE_OBJECT File) {
    KIRQL Irql;
    KeAcquireSpinLock(Lock, &Irql);
    File->FsContext = File;
    KeReleaseSpinLock(Lock, Irql);
}

/* ---- The device ---- */
static inline VOID NTAPI UnloadDevice(PDRIVER_OBJECT DriverObject) {
    IoDeleteDevice(DriverObject->DeviceObject);
}

/* The same of a driver with a DPC. */
static inline VOID NTAPI UnloadAfterDpcs(PDRIVER_OBJECT DriverObject) {
    KeFlushQueuedDpcs();
    IoDeleteDevice(DriverObject->DeviceObject);
}

/* Makes the driver's one device, and returns its extension, which is zero; null: it failed. */
static PVOID Begin(PDRIVER_OBJECT DriverObject, ULONG ExtensionSize, PDRIVER_DISPATCH Read,
                   PDRIVER_DISPATCH Write, PDRIVER_DISPATCH Cleanup, PDRIVER_UNLOAD Unload) {
    PDEVICE_OBJECT DeviceObject;
    NTSTATUS Status = IoCreateDevice(DriverObject, ExtensionSize, NULL, FILE_DEVICE_UNKNOWN, 0,
                                     FALSE, &DeviceObject);
    if (!NT_SUCCESS(Status)) {
        return NULL;
    }
    DriverObject->DriverUnload = Unload;
    DriverObject->MajorFunction[IRP_MJ_CREATE] = Succeed;
    DriverObject->MajorFunction[IRP_MJ_CLOSE] = Succeed;
    DriverObject->MajorFunction[IRP_MJ_READ] = Read;
    DriverObject->MajorFunction[IRP_MJ_WRITE] = Write;
    DriverObject->MajorFunction[IRP_MJ_CLEANUP] = Cleanup;
    DeviceObject->Flags |= DO_BUFFERED_IO;
    DeviceObject->Flags &= ~(ULONG)DO_DEVICE_INITIALIZING;
    return DeviceObject->DeviceExtension;
}

/* ---- A list of requests ---- */
/* Of the driver: takes a request off the list. Whether the caller gets it: otherwise a cancel has
 * it. File is null if any file object's will do. The list's lock is held. */
typedef BOOLEAN TAKE(PIRP Irp, PFILE_OBJECT File);

/* The first request that the caller gets, of this file object or, if it is null, of any. Null:
 * there is none. The list's lock is held. */
static inline PIRP TakeFirst(PLIST_ENTRY Head, PFILE_OBJECT File, TAKE Take) {
    PIRP Found = NULL;
    PLIST_ENTRY Entry, Next;
    for (Entry = Head->Flink; Entry != Head && Found == NULL; Entry = Next) {
        PIRP Irp = CONTAINING_RECORD(Entry, IRP, Tail.Overlay.ListEntry);
        Next = Entry->Flink;
        if ((File == NULL || FileOf(Irp) == File) && Take(Irp, File)) {
            Found = Irp;
        }
    }
    return Found;
}

/* The same of a list under a spin lock, which is taken. */
static inline PIRP Dequeue(PKSPIN_LOCK Lock, PLIST_ENTRY Head, PFILE_OBJECT File, TAKE Take) {
    PIRP Found;
    KIRQL Irql;
    KeAcquireSpinLock(Lock, &Irql);
    Found = TakeFirst(Head, File, Take);
    KeReleaseSpinLock(Lock, Irql);
    return Found;
}

/* All that a cleanup does with such a list. */
static inline NTSTATUS CleanUp(PKSPIN_LOCK Lock, PLIST_ENTRY Head, PIRP Irp, TAKE Take) {
    PIRP Left;
    MarkClosed(Lock, FileOf(Irp));
    while ((Left = Dequeue(Lock, Head, FileOf(Irp), Take)) != NULL) {
        Complete(Left, STATUS_CANCELLED);
    }
    return Complete(Irp, STATUS_SUCCESS);
}

/* ---- A device that works at one request at a time ---- */
typedef struct _WORK {
    KTIMER Timer;
    KDPC Done;
} WORK, *PWORK;

static inline VOID InitializeWork(PWORK Work, PKDEFERRED_ROUTINE Done, PVOID Context) {
    KeInitializeTimer(&Work->Timer);
    KeInitializeDpc(&Work->Done, Done, Context);
}

static inline VOID StartWork(PWORK Work) {
    LARGE_INTEGER Soon;
    Soon.QuadPart = -500; /* 50 microseconds */
    KeSetTimer(&Work->Timer, Soon, &Work->Done);
}

#endif
