/* Each read is kept in a context that points back to it, with the framework's own context in it and
 * a timer, which the insert callback sets. Its DPC asks the queue for just this read. */
#include "removed.h"

#define POOL_TAG 'txtC'

typedef struct _REQUEST {
    IO_CSQ_IRP_CONTEXT Context;
    PIRP Irp;
    LONG volatile References; /* of the queue and of the timer */
    KTIMER Timer;
    KDPC Dpc;
    PWAITING Reads;
} REQUEST, *PREQUEST;

static DRIVER_DISPATCH Read, Write;
static KDEFERRED_ROUTINE TimeOut;

static VOID Release(PREQUEST Request) {
    if (InterlockedDecrement(&Request->References) == 0) {
        ExFreePoolWithTag(Request, POOL_TAG);
    }
}

static VOID End(PVOID DeviceExtension, PIRP Irp, NTSTATUS Status) {
    PREQUEST Request = Irp->Tail.Overlay.DriverContext[0];
    UNREFERENCED_PARAMETER(DeviceExtension);
    ASSERT(Request->Irp == Irp);
    if (KeCancelTimer(&Request->Timer)) {
        Release(Request);
    }
    Release(Request);
    Complete(Irp, Status);
}

/* InsertContext is the request. A DPC that comes at once waits for the queue's lock. */
static NTSTATUS NTAPI InsertAndSetTimer(PIO_CSQ Csq, PIRP Irp, PVOID InsertContext) {
    PREQUEST Request = InsertContext;
    NTSTATUS Status = InsertWaiting(Csq, Irp, NULL);
    LARGE_INTEGER Soon;
    if (NT_SUCCESS(Status)) {
        Soon.QuadPart = -10000; /* a millisecond */
        KeSetTimer(&Request->Timer, Soon, &Request->Dpc);
    }
    return Status;
}

static VOID NTAPI TimeOut(PKDPC Dpc, PVOID Context, PVOID First, PVOID Second) {
    PREQUEST Request = Context;
    PIRP Irp = IoCsqRemoveIrp(&Request->Reads->Queue, &Request->Context);
    UNREFERENCED_PARAMETER(Dpc);
    UNREFERENCED_PARAMETER(First);
    UNREFERENCED_PARAMETER(Second);
    if (Irp != NULL) {
        End(Request->Reads, Irp, STATUS_IO_TIMEOUT);
    }
    Release(Request); /* the timer's */
}

static NTSTATUS NTAPI Read(PDEVICE_OBJECT DeviceObject, PIRP Irp) {
    PWAITING Reads = DeviceObject->DeviceExtension;
    PREQUEST Request = ExAllocatePoolWithTag(NonPagedPool, sizeof(REQUEST), POOL_TAG);
    NTSTATUS Status;
    if (Request == NULL) {
        return Complete(Irp, STATUS_INSUFFICIENT_RESOURCES);
    }
    Request->Irp = Irp;
    Request->References = 2;
    Request->Reads = Reads;
    KeInitializeTimer(&Request->Timer);
    KeInitializeDpc(&Request->Dpc, TimeOut, Request);
    Irp->Tail.Overlay.DriverContext[0] = Request;
    Status = IoCsqInsertIrpEx(&Reads->Queue, Irp, &Request->Context, Request);
    if (!NT_SUCCESS(Status)) {
        ExFreePoolWithTag(Request, POOL_TAG);
        return Complete(Irp, Status);
    }
    return STATUS_PENDING;
}

static NTSTATUS NTAPI Write(PDEVICE_OBJECT DeviceObject, PIRP Irp) {
    EndOldest(DeviceObject->DeviceExtension);
    return Complete(Irp, STATUS_SUCCESS);
}

NTSTATUS NTAPI DriverEntry(PDRIVER_OBJECT DriverObject, PUNICODE_STRING RegistryPath) {
    PWAITING Reads = Begin(DriverObject, sizeof(WAITING), Read, Write, EndAtCleanup);
    UNREFERENCED_PARAMETER(RegistryPath);
    if (Reads == NULL) {
        return STATUS_INSUFFICIENT_RESOURCES;
    }
    InitializeOwn(Reads, InsertAndSetTimer, PeekWaiting, EndCanceled);
    return STATUS_SUCCESS;
}
