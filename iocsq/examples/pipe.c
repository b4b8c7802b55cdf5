/*
 * A named pipe: two file objects are its ends, and what one writes the other reads, a message at a
 * time. When one is closed the pipe is broken: what waits at the other end is completed with
 * STATUS_PIPE_BROKEN.
 *
 * A read and a write have to meet, whichever comes first, and either may be cancelled as they do.
 * So each waits in a queue of its own, and TakeBoth takes one of each. A read that it gets without
 * a write it puts back in front.
 *
 * A pipe has to stay for as long as anything of it is used. Its queues are used by cancel routines
 * too, which may come late. Each file object has a reference to its pipe until IRP_MJ_CLOSE, which
 * comes once all of its IRPs are completed; and so has a dispatch routine that goes on after it has
 * queued its IRP.
 */
#include "irp_queue.h"

#define TAG 'epiP'

typedef struct _END { /* one file object's: all IRPs of its queues are of that */
    struct _PIPE *Pipe;
    struct _END *Other;
    IRP_QUEUE Reads;
    IRP_QUEUE Writes; /* until the other end reads */
} END, *PEND;

typedef struct _PIPE {
    KSPIN_LOCK Lock;    /* of the four queues and of Broken */
    BOOLEAN Broken;     /* one end was closed */
    FAST_MUTEX Meeting; /* one thread at a time looks for a read and a write */
    LONG References;
    END Ends[2];
} PIPE, *PPIPE;

typedef struct _EXTENSION {
    FAST_MUTEX Lock; /* of Listening */
    PEND Listening;  /* the second end of a pipe, until it is opened; null: there is none */
} EXTENSION, *PEXTENSION;

static PEND EndOf(PIRP Irp) {
    return FileOf(Irp)->FsContext;
}

static NTSTATUS Admit(PIRP Irp) {
    return EndOf(Irp)->Pipe->Broken ? STATUS_PIPE_BROKEN : STATUS_PENDING;
}

/* Each removal asks for any IRP of its queue. */
BOOLEAN IsWanted(PIRP Irp, PVOID PeekContext) {
    UNREFERENCED_PARAMETER(Irp);
    return PeekContext == NULL;
}

/* A test asks this, where nothing else happens: whether a read or a write may wait on, since the
 * other end has none. */
BOOLEAN MayWait(PIRP Irp);
BOOLEAN MayWait(PIRP Irp) {
    PEND Other = EndOf(Irp)->Other;
    BOOLEAN Reads = IoGetCurrentIrpStackLocation(Irp)->MajorFunction == IRP_MJ_READ;
    return IsListEmpty(Reads ? &Other->Writes.Irps : &Other->Reads.Irps);
}

/* ---- A read and a write meet ---- */
/* Takes the first read of an end and the first write of the other. Under a mutex, so that no two
 * threads each take a half; not under a spin lock, since the read that goes back may be completed:
 * it was cancelled, or the pipe broken (then with STATUS_PIPE_BROKEN, even where its own end is
 * closed). So a completion routine must not send to the same pipe: it would wait for this mutex,
 * which its own thread has. */
static BOOLEAN TakeBoth(PEND Reader, PIRP *Read, PIRP *Write) {
    ExAcquireFastMutex(&Reader->Pipe->Meeting);
    *Read = IoCsqRemoveNextIrp(&Reader->Reads.Csq, NULL);
    *Write = *Read != NULL ? IoCsqRemoveNextIrp(&Reader->Other->Writes.Csq, NULL) : NULL;
    if (*Read != NULL && *Write == NULL) {
        Enqueue(&Reader->Reads, *Read, Reader); /* in front; its dispatch routine answers
                                                 * STATUS_PENDING in any case */
    }
    ExReleaseFastMutex(&Reader->Pipe->Meeting);
    return *Write != NULL;
}

static VOID Meet(PEND Reader) {
    PIRP Read, Write;
    while (TakeBoth(Reader, &Read, &Write)) {
        ULONG Room = IoGetCurrentIrpStackLocation(Read)->Parameters.Read.Length;
        ULONG Length = IoGetCurrentIrpStackLocation(Write)->Parameters.Write.Length;
        ULONG Count = Length < Room ? Length : Room; /* what doesn't fit is lost, as of a message */
        RtlCopyMemory(Read->AssociatedIrp.SystemBuffer, Write->AssociatedIrp.SystemBuffer, Count);
        Finish(Read, STATUS_SUCCESS, Count);
        Finish(Write, STATUS_SUCCESS, Length);
    }
}

/* The first end of a new pipe. Null: no memory. */
static PEND NewPipe(VOID) {
    PPIPE Pipe = ExAllocatePoolWithTag(NonPagedPool, sizeof(PIPE), TAG);
    int At;
    if (Pipe == NULL) {
        return NULL;
    }
    RtlZeroMemory(Pipe, sizeof(PIPE));
    KeInitializeSpinLock(&Pipe->Lock);
    ExInitializeFastMutex(&Pipe->Meeting);
    for (At = 0; At < 2; At++) {
        Pipe->Ends[At].Pipe = Pipe;
        Pipe->Ends[At].Other = &Pipe->Ends[1 - At];
        InitializeQueue(&Pipe->Ends[At].Reads, &Pipe->Lock);
        InitializeQueue(&Pipe->Ends[At].Writes, &Pipe->Lock);
    }
    return &Pipe->Ends[0];
}

static VOID Dereference(PPIPE Pipe) {
    if (InterlockedDecrement(&Pipe->References) == 0) {
        ExFreePoolWithTag(Pipe, TAG);
    }
}

/* ---- The dispatch routines ---- */
static NTSTATUS NTAPI DispatchCreate(PDEVICE_OBJECT DeviceObject, PIRP Irp) {
    PEXTENSION Extension = DeviceObject->DeviceExtension;
    PEND End;
    ExAcquireFastMutex(&Extension->Lock);
    End = Extension->Listening != NULL ? Extension->Listening : NewPipe();
    if (End != NULL) {
        InterlockedIncrement(&End->Pipe->References);
        Extension->Listening = Extension->Listening != NULL ? NULL : End->Other;
    }
    ExReleaseFastMutex(&Extension->Lock);
    FileOf(Irp)->FsContext = End;
    return Finish(Irp, End != NULL ? STATUS_SUCCESS : STATUS_INSUFFICIENT_RESOURCES, 0);
}

/* Queues a read or a write, and looks whether what it waits for is there. Once queued it may be
 * completed, and its file object closed: so the pipe is referenced for as long as it is used
 * here. */
static NTSTATUS NTAPI DispatchReadWrite(PDEVICE_OBJECT DeviceObject, PIRP Irp) {
    PEND End = EndOf(Irp);
    BOOLEAN Reads = IoGetCurrentIrpStackLocation(Irp)->MajorFunction == IRP_MJ_READ;
    NTSTATUS Status;
    UNREFERENCED_PARAMETER(DeviceObject);
    InterlockedIncrement(&End->Pipe->References);
    Status = Enqueue(Reads ? &End->Reads : &End->Writes, Irp, NULL);
    if (NT_SUCCESS(Status)) {
        Meet(Reads ? End : End->Other);
    }
    Dereference(End->Pipe);
    return Status;
}

static NTSTATUS NTAPI DispatchCleanup(PDEVICE_OBJECT DeviceObject, PIRP Irp) {
    PEXTENSION Extension = DeviceObject->DeviceExtension;
    PEND End = EndOf(Irp);
    KIRQL Irql;
    ExAcquireFastMutex(&Extension->Lock);
    if (Extension->Listening == End->Other) {
        Extension->Listening = NULL;
    }
    ExReleaseFastMutex(&Extension->Lock);
    KeAcquireSpinLock(&End->Pipe->Lock, &Irql);
    End->Pipe->Broken = TRUE; /* from now on nothing is queued, and then the queues are emptied */
    KeReleaseSpinLock(&End->Pipe->Lock, Irql);
    CompleteAll(&End->Reads, NULL, STATUS_CANCELLED);
    CompleteAll(&End->Writes, NULL, STATUS_CANCELLED);
    CompleteAll(&End->Other->Reads, NULL, STATUS_PIPE_BROKEN);
    CompleteAll(&End->Other->Writes, NULL, STATUS_PIPE_BROKEN);
    return Finish(Irp, STATUS_SUCCESS, 0);
}

static NTSTATUS NTAPI DispatchClose(PDEVICE_OBJECT DeviceObject, PIRP Irp) {
    UNREFERENCED_PARAMETER(DeviceObject);
    Dereference(EndOf(Irp)->Pipe);
    return Finish(Irp, STATUS_SUCCESS, 0);
}

static VOID NTAPI Unload(PDRIVER_OBJECT DriverObject) {
    IoDeleteDevice(DriverObject->DeviceObject);
}

DRIVER_INITIALIZE DriverEntry;
NTSTATUS NTAPI DriverEntry(PDRIVER_OBJECT DriverObject, PUNICODE_STRING RegistryPath) {
    PDEVICE_OBJECT Device;
    NTSTATUS Status = IoCreateDevice(DriverObject, sizeof(EXTENSION), NULL, FILE_DEVICE_UNKNOWN, 0,
                                     FALSE, &Device);
    UNREFERENCED_PARAMETER(RegistryPath);
    if (!NT_SUCCESS(Status)) {
        return Status;
    }
    Device->Flags |= DO_BUFFERED_IO; /* else SystemBuffer is null */
    ExInitializeFastMutex(&((PEXTENSION)Device->DeviceExtension)->Lock);
    DriverObject->DriverUnload = Unload;
    DriverObject->MajorFunction[IRP_MJ_CREATE] = DispatchCreate;
    DriverObject->MajorFunction[IRP_MJ_CLOSE] = DispatchClose;
    DriverObject->MajorFunction[IRP_MJ_READ] = DispatchReadWrite;
    DriverObject->MajorFunction[IRP_MJ_WRITE] = DispatchReadWrite;
    DriverObject->MajorFunction[IRP_MJ_CLEANUP] = DispatchCleanup;
    Device->Flags &= ~(ULONG)DO_DEVICE_INITIALIZING;
    return STATUS_SUCCESS;
}
