/* Inverted calls whose peek contexts are never null: a device control waits for one kind of event,
 * another raises it, and each removal names a file object, or none, and a kind, or all. */
#include "waiting.h"

#define IOCTL(Function) CTL_CODE(FILE_DEVICE_UNKNOWN, Function, METHOD_BUFFERED, FILE_ANY_ACCESS)
#define IOCTL_WAIT_FOR_KEY IOCTL(0x801)
#define IOCTL_WAIT_FOR_BUTTON IOCTL(0x802)
#define IOCTL_RAISE_KEY IOCTL(0x803)
#define IOCTL_RAISE_BUTTON IOCTL(0x804)

typedef struct _WANTED {
    PFILE_OBJECT File; /* null: any */
    ULONG Code;        /* 0: any */
} WANTED, *PWANTED;

typedef struct _EXTENSION {
    WAITING Calls;
} EXTENSION, *PEXTENSION;

static ULONG CodeOf(PIRP Irp) {
    return IoGetCurrentIrpStackLocation(Irp)->Parameters.DeviceIoControl.IoControlCode;
}

/* Of a test's policy too. */
BOOLEAN IsWanted(PIRP Irp, PVOID PeekContext) {
    PWANTED Wanted = PeekContext;
    return (Wanted->File == NULL || Wanted->File == FileOf(Irp)) &&
           (Wanted->Code == 0 || Wanted->Code == CodeOf(Irp));
}

static PIRP NTAPI PeekWanted(PIO_CSQ Csq, PIRP Irp, PVOID PeekContext) {
    PLIST_ENTRY Head = &CONTAINING_RECORD(Csq, WAITING, Queue)->Irps;
    PLIST_ENTRY Entry = Irp != NULL ? Irp->Tail.Overlay.ListEntry.Flink : Head->Flink;
    for (; Entry != Head; Entry = Entry->Flink) {
        PIRP Next = CONTAINING_RECORD(Entry, IRP, Tail.Overlay.ListEntry);
#if WRONG == 2
        if (PeekContext == NULL) {
            continue; /* which nobody asks */
        }
#endif
        if (IsWanted(Next, PeekContext)) {
            return Next;
        }
    }
    return NULL;
}

/* Completes all calls of this kind and file object. */
static VOID CompleteCalls(PEXTENSION Extension, PFILE_OBJECT File, ULONG Code, NTSTATUS Status) {
    WANTED Wanted;
    PIRP Call;
    Wanted.File = File;
    Wanted.Code = Code;
    while ((Call = IoCsqRemoveNextIrp(&Extension->Calls.Queue, &Wanted)) != NULL) {
        Finish(Call, Status, 0);
    }
}

static NTSTATUS NTAPI Control(PDEVICE_OBJECT DeviceObject, PIRP Irp) {
    PEXTENSION Extension = DeviceObject->DeviceExtension;
    switch (CodeOf(Irp)) {
    case IOCTL_WAIT_FOR_KEY:
    case IOCTL_WAIT_FOR_BUTTON: return Wait(&Extension->Calls, Irp);
    case IOCTL_RAISE_KEY: CompleteCalls(Extension, NULL, IOCTL_WAIT_FOR_KEY, STATUS_SUCCESS); break;
    case IOCTL_RAISE_BUTTON:
        CompleteCalls(Extension, NULL, IOCTL_WAIT_FOR_BUTTON, STATUS_SUCCESS);
        break;
    default: Finish(Irp, STATUS_INVALID_DEVICE_REQUEST, 0); return STATUS_INVALID_DEVICE_REQUEST;
    }
    return Succeed(DeviceObject, Irp);
}

static NTSTATUS NTAPI Cleanup(PDEVICE_OBJECT DeviceObject, PIRP Irp) {
    PEXTENSION Extension = DeviceObject->DeviceExtension;
    CloseFile(&Extension->Calls, FileOf(Irp));
    CompleteCalls(Extension, FileOf(Irp), 0, STATUS_CANCELLED);
    return Succeed(DeviceObject, Irp);
}

static VOID NTAPI Unload(PDRIVER_OBJECT DriverObject) {
    IoDeleteDevice(DriverObject->DeviceObject);
}

DRIVER_INITIALIZE DriverEntry;
NTSTATUS NTAPI DriverEntry(PDRIVER_OBJECT DriverObject, PUNICODE_STRING RegistryPath) {
    PDEVICE_OBJECT DeviceObject;
    PWAITING Calls;
    NTSTATUS Status = MakeDevice(DriverObject, sizeof(EXTENSION), &DeviceObject);
    UNREFERENCED_PARAMETER(RegistryPath);
    if (!NT_SUCCESS(Status)) {
        return Status;
    }
    Calls = &((PEXTENSION)DeviceObject->DeviceExtension)->Calls;
    InitializeListHead(&Calls->Irps);
    KeInitializeSpinLock(&Calls->Lock);
    IoCsqInitializeEx(&Calls->Queue, InsertWaiting, RemoveWaiting, PeekWanted, LockWaiting,
                      UnlockWaiting, CompleteWaiting);
    DriverObject->DriverUnload = Unload;
    DriverObject->MajorFunction[IRP_MJ_DEVICE_CONTROL] = Control;
    DriverObject->MajorFunction[IRP_MJ_CLEANUP] = Cleanup;
    return STATUS_SUCCESS;
}
