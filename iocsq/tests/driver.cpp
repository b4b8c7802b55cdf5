/* A driver in C++: reads wait in a cancel-safe queue until a write of their file object, or until
 * its cleanup. Its file objects' state has a class, and the lock is taken by one. */
#include <ntddk.h>
#include <csq.h>

namespace {

/* The lock of the queue, for as long as one of these lives. */
class Guard {
public:
    explicit Guard(PKSPIN_LOCK Lock) : Taken(Lock) { KeAcquireSpinLock(Taken, &Irql); }
    ~Guard() { KeReleaseSpinLock(Taken, Irql); }
    Guard(const Guard &) = delete;
    Guard &operator=(const Guard &) = delete;

private:
    PKSPIN_LOCK Taken;
    KIRQL Irql;
};

struct Extension {
    IO_CSQ Queue;
    LIST_ENTRY Waiting; /* under Lock */
    KSPIN_LOCK Lock;

    static Extension *Of(PIO_CSQ Csq) { return CONTAINING_RECORD(Csq, Extension, Queue); }
    static Extension *Of(PDEVICE_OBJECT Device) {
        return static_cast<Extension *>(Device->DeviceExtension);
    }
};

PFILE_OBJECT FileOf(PIRP Irp) {
    return IoGetCurrentIrpStackLocation(Irp)->FileObject;
}

NTSTATUS Finish(PIRP Irp, NTSTATUS Status, ULONG_PTR Information = 0) {
    Irp->IoStatus.Status = Status;
    Irp->IoStatus.Information = Information;
    IoCompleteRequest(Irp, IO_NO_INCREMENT);
    return Status;
}

NTSTATUS NTAPI InsertWaiting(PIO_CSQ Csq, PIRP Irp, PVOID) {
    if (FileOf(Irp)->FsContext != nullptr) {
        return STATUS_FILE_CLOSED;
    }
    InsertTailList(&Extension::Of(Csq)->Waiting, &Irp->Tail.Overlay.ListEntry);
    return STATUS_PENDING;
}

VOID NTAPI RemoveWaiting(PIO_CSQ, PIRP Irp) {
    RemoveEntryList(&Irp->Tail.Overlay.ListEntry);
}

PIRP NTAPI PeekWaiting(PIO_CSQ Csq, PIRP Irp, PVOID PeekContext) {
    PLIST_ENTRY Head = &Extension::Of(Csq)->Waiting;
    PLIST_ENTRY Entry = Irp != nullptr ? Irp->Tail.Overlay.ListEntry.Flink : Head->Flink;
    for (; Entry != Head; Entry = Entry->Flink) {
        PIRP Next = CONTAINING_RECORD(Entry, IRP, Tail.Overlay.ListEntry);
        if (PeekContext == nullptr || PeekContext == FileOf(Next)) {
            return Next;
        }
    }
    return nullptr;
}

VOID NTAPI LockWaiting(PIO_CSQ Csq, PKIRQL Irql) {
    KeAcquireSpinLock(&Extension::Of(Csq)->Lock, Irql);
}

VOID NTAPI UnlockWaiting(PIO_CSQ Csq, KIRQL Irql) {
    KeReleaseSpinLock(&Extension::Of(Csq)->Lock, Irql);
}

VOID NTAPI CompleteCanceled(PIO_CSQ, PIRP Irp) {
    Finish(Irp, STATUS_CANCELLED);
}

NTSTATUS NTAPI DispatchOpen(PDEVICE_OBJECT, PIRP Irp) {
    return Finish(Irp, STATUS_SUCCESS);
}

NTSTATUS NTAPI DispatchRead(PDEVICE_OBJECT Device, PIRP Irp) {
    NTSTATUS Status = IoCsqInsertIrpEx(&Extension::Of(Device)->Queue, Irp, nullptr, nullptr);
    return NT_SUCCESS(Status) ? Status : Finish(Irp, Status);
}

NTSTATUS NTAPI DispatchWrite(PDEVICE_OBJECT Device, PIRP Irp) {
    if (PIRP Read = IoCsqRemoveNextIrp(&Extension::Of(Device)->Queue, FileOf(Irp))) {
        Finish(Read, STATUS_SUCCESS, 1);
    }
    return Finish(Irp, STATUS_SUCCESS);
}

NTSTATUS NTAPI DispatchCleanup(PDEVICE_OBJECT Device, PIRP Irp) {
    Extension *Extended = Extension::Of(Device);
    {
        Guard Held(&Extended->Lock);
        FileOf(Irp)->FsContext = Extended;
    }
    while (PIRP Read = IoCsqRemoveNextIrp(&Extended->Queue, FileOf(Irp))) {
        Finish(Read, STATUS_CANCELLED);
    }
    return Finish(Irp, STATUS_SUCCESS);
}

VOID NTAPI Unload(PDRIVER_OBJECT Driver) {
    IoDeleteDevice(Driver->DeviceObject);
}

} // namespace

extern "C" DRIVER_INITIALIZE DriverEntry;
extern "C" NTSTATUS NTAPI DriverEntry(PDRIVER_OBJECT Driver, PUNICODE_STRING) {
    PDEVICE_OBJECT Device;
    NTSTATUS Status =
        IoCreateDevice(Driver, sizeof(Extension), nullptr, FILE_DEVICE_UNKNOWN, 0, FALSE, &Device);
    if (!NT_SUCCESS(Status)) {
        return Status;
    }
    Device->Flags |= DO_BUFFERED_IO;
    Extension *Extended = Extension::Of(Device);
    InitializeListHead(&Extended->Waiting);
    KeInitializeSpinLock(&Extended->Lock);
    IoCsqInitializeEx(&Extended->Queue, InsertWaiting, RemoveWaiting, PeekWaiting, LockWaiting,
                      UnlockWaiting, CompleteCanceled);
    Driver->DriverUnload = Unload;
    Driver->MajorFunction[IRP_MJ_CREATE] = DispatchOpen;
    Driver->MajorFunction[IRP_MJ_CLOSE] = DispatchOpen;
    Driver->MajorFunction[IRP_MJ_READ] = DispatchRead;
    Driver->MajorFunction[IRP_MJ_WRITE] = DispatchWrite;
    Driver->MajorFunction[IRP_MJ_CLEANUP] = DispatchCleanup;
    return STATUS_SUCCESS;
}
