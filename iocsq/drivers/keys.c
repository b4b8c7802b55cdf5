/* Contexts of the driver's own: a peek context names a file object, or none, and a key, which is a
 * read's length. */
#include "waiting.h"

typedef struct _WANTED {
    PFILE_OBJECT File; /* null: any */
    ULONG Key;         /* 0: any */
} WANTED, *PWANTED;

typedef struct _EXTENSION {
    WAITING Reads;
#if WRONG == 5
    WAITING Never; /* used */
#endif
} EXTENSION, *PEXTENSION;

static ULONG KeyOf(PIRP Irp) {
    return IoGetCurrentIrpStackLocation(Irp)->Parameters.Read.Length;
}

BOOLEAN IsWanted(PIRP Irp, PVOID PeekContext) {
    PWANTED Wanted = PeekContext;
    return Wanted == NULL || ((Wanted->File == NULL || Wanted->File == FileOf(Irp)) &&
                              (Wanted->Key == 0 || Wanted->Key == KeyOf(Irp)));
}

static PIRP NTAPI PeekWanted(PIO_CSQ Csq, PIRP Irp, PVOID PeekContext) {
    PLIST_ENTRY Head = &CONTAINING_RECORD(Csq, WAITING, Queue)->Irps;
    PLIST_ENTRY Entry = Irp != NULL ? Irp->Tail.Overlay.ListEntry.Flink : Head->Flink;
    for (; Entry != Head; Entry = Entry->Flink) {
        PIRP Next = CONTAINING_RECORD(Entry, IRP, Tail.Overlay.ListEntry);
#if WRONG == 1
        if (PeekContext == NULL || ((PWANTED)PeekContext)->Key == 0 ||
            ((PWANTED)PeekContext)->Key == KeyOf(Next)) {
            return Next; /* of whatever file object */
        }
#elif WRONG == 2
        if (IsWanted(Next, PeekContext) || (Irp != NULL && KeyOf(Next) == KeyOf(Irp))) {
            return Next; /* "the next of its like" */
        }
#else
        if (IsWanted(Next, PeekContext)) {
            return Next;
        }
#endif
    }
    return NULL;
}

static VOID Begin(PWAITING Reads) {
    InitializeListHead(&Reads->Irps);
    KeInitializeSpinLock(&Reads->Lock);
#if WRONG == 4 /* which does no harm, as long as nothing is in the queue */
    IoCsqInitializeEx(&Reads->Queue, InsertWaiting, RemoveWaiting, PeekWaiting, LockWaiting,
                      UnlockWaiting, CompleteWaiting);
#endif
    IoCsqInitializeEx(&Reads->Queue, InsertWaiting, RemoveWaiting, PeekWanted, LockWaiting,
                      UnlockWaiting, CompleteWaiting);
}

#if WRONG == 3
static NTSTATUS NTAPI Open(PDEVICE_OBJECT DeviceObject, PIRP Irp) {
    Begin(&((PEXTENSION)DeviceObject->DeviceExtension)->Reads);
    return Succeed(DeviceObject, Irp);
}
#endif

static NTSTATUS NTAPI Read(PDEVICE_OBJECT DeviceObject, PIRP Irp) {
    return Wait(&((PEXTENSION)DeviceObject->DeviceExtension)->Reads, Irp);
}

static NTSTATUS NTAPI Write(PDEVICE_OBJECT DeviceObject, PIRP Irp) {
    PEXTENSION Extension = DeviceObject->DeviceExtension;
    WANTED Wanted;
    PIRP Waiting;
    Wanted.File = KeyOf(Irp) % 2 == 0 ? FileOf(Irp) : NULL;
    Wanted.Key = KeyOf(Irp);
    Waiting = IoCsqRemoveNextIrp(&Extension->Reads.Queue, &Wanted);
    if (Waiting != NULL) {
        Finish(Waiting, STATUS_SUCCESS, 1);
    }
    return Succeed(DeviceObject, Irp);
}

static NTSTATUS NTAPI Cleanup(PDEVICE_OBJECT DeviceObject, PIRP Irp) {
    PEXTENSION Extension = DeviceObject->DeviceExtension;
    WANTED Wanted;
    PIRP Waiting;
    Wanted.File = FileOf(Irp);
    Wanted.Key = 0;
    CloseFile(&Extension->Reads, Wanted.File);
    while ((Waiting = IoCsqRemoveNextIrp(&Extension->Reads.Queue, &Wanted)) != NULL) {
        Finish(Waiting, STATUS_CANCELLED, 0);
    }
    return Succeed(DeviceObject, Irp);
}

static VOID NTAPI Unload(PDRIVER_OBJECT DriverObject) {
    IoDeleteDevice(DriverObject->DeviceObject);
}

DRIVER_INITIALIZE DriverEntry;
NTSTATUS NTAPI DriverEntry(PDRIVER_OBJECT DriverObject, PUNICODE_STRING RegistryPath) {
    PDEVICE_OBJECT DeviceObject;
    PEXTENSION Extension;
    NTSTATUS Status = MakeDevice(DriverObject, sizeof(EXTENSION), &DeviceObject);
    UNREFERENCED_PARAMETER(RegistryPath);
    if (!NT_SUCCESS(Status)) {
        return Status;
    }
    Extension = DeviceObject->DeviceExtension;
    Begin(&Extension->Reads);
#if WRONG == 3
    DriverObject->MajorFunction[IRP_MJ_CREATE] = Open;
#elif WRONG == 5
    InitializeWaiting(&Extension->Never, CompleteWaiting);
#endif
    DriverObject->DriverUnload = Unload;
    DriverObject->MajorFunction[IRP_MJ_READ] = Read;
    DriverObject->MajorFunction[IRP_MJ_WRITE] = Write;
    DriverObject->MajorFunction[IRP_MJ_CLEANUP] = Cleanup;
    return STATUS_SUCCESS;
}
