/* Each read has a timer of its own, in a context that points back to it: the timer's DPC, a cancel
 * and a write race for the read. The context is freed by the last of the queue and the timer. */
#include "requests.h"

struct _REQUEST {
    LIST_ENTRY Entry; /* under the lock, with Irp */
    PIRP Irp;         /* null: it was taken */
    LONG volatile References;
    KTIMER Timer;
    KDPC Dpc;
    PEXTENSION Extension;
};

static QUEUE Queue;
static DRIVER_CANCEL CancelRead;
static KDEFERRED_ROUTINE TimeOut;

static VOID Release(PREQUEST Request) {
    if (InterlockedDecrement(&Request->References) == 0) {
        ExFreePoolWithTag(Request, POOL_TAG);
    }
}

/* Whether the DPC doesn't come any more. With WRONG 1 it is taken out of the queue, which says
 * nothing of one that runs on another processor. */
static BOOLEAN EndDpc(PREQUEST Request, NTSTATUS Status) {
#if WRONG == 1
    if (Status != STATUS_IO_TIMEOUT) {
        KeRemoveQueueDpc(&Request->Dpc);
        return TRUE;
    }
#endif
    UNREFERENCED_PARAMETER(Request);
    UNREFERENCED_PARAMETER(Status);
    return FALSE;
}

/* Ends a request that was taken. If its timer can't be cancelled, the DPC has a reference yet. */
static VOID End(PREQUEST Request, PIRP Irp, NTSTATUS Status) {
    if (KeCancelTimer(&Request->Timer) || EndDpc(Request, Status)) {
        Release(Request);
    }
    Release(Request);
    Complete(Irp, Status);
}

/* The lock is held. */
static PIRP Unlink(PREQUEST Request) {
    PIRP Irp = Request->Irp;
    RemoveEntryList(&Request->Entry);
    Request->Irp = NULL;
    return Irp;
}

static VOID NTAPI CancelRead(PDEVICE_OBJECT DeviceObject, PIRP Irp) {
    PEXTENSION Extension = DeviceObject->DeviceExtension;
    PREQUEST Request = Irp->Tail.Overlay.DriverContext[0];
    KIRQL Irql;
    IoReleaseCancelSpinLock(Irp->CancelIrql);
    KeAcquireSpinLock(&Extension->Lock, &Irql);
    Unlink(Request);
    KeReleaseSpinLock(&Extension->Lock, Irql);
    End(Request, Irp, STATUS_CANCELLED);
}

static VOID NTAPI TimeOut(PKDPC Dpc, PVOID Context, PVOID First, PVOID Second) {
    PREQUEST Request = Context;
    PIRP Irp = NULL;
    UNREFERENCED_PARAMETER(Dpc);
    UNREFERENCED_PARAMETER(First);
    UNREFERENCED_PARAMETER(Second);
    KeAcquireSpinLockAtDpcLevel(&Request->Extension->Lock);
    if (Request->Irp != NULL && IoSetCancelRoutine(Request->Irp, NULL) != NULL) {
        Irp = Unlink(Request);
    }
    KeReleaseSpinLockFromDpcLevel(&Request->Extension->Lock);
    if (Irp != NULL) {
        End(Request, Irp, STATUS_IO_TIMEOUT);
    }
    Release(Request); /* the timer's */
}

static BOOLEAN Queue(PEXTENSION Extension, PREQUEST Request) {
    LARGE_INTEGER Soon;
    if (!ArmEntry(&Extension->Requests, &Request->Entry, Request->Irp, CancelRead)) {
        return FALSE;
    }
    Soon.QuadPart = -10000; /* a millisecond */
    KeSetTimer(&Request->Timer, Soon, &Request->Dpc);
    return TRUE;
}

static NTSTATUS NTAPI Read(PDEVICE_OBJECT DeviceObject, PIRP Irp) {
    PEXTENSION Extension = DeviceObject->DeviceExtension;
    PREQUEST Request = ExAllocatePoolWithTag(NonPagedPool, sizeof(REQUEST), POOL_TAG);
    if (Request == NULL) {
        return Complete(Irp, STATUS_INSUFFICIENT_RESOURCES);
    }
    Request->Irp = Irp;
    Request->References = 2;
    Request->Extension = Extension;
    KeInitializeTimer(&Request->Timer);
    KeInitializeDpc(&Request->Dpc, TimeOut, Request);
    return WaitAs(Extension, Request, Irp, Queue);
}

/* Ends the first that no cancel has, of this file object or of any for null, if there is one. */
static BOOLEAN EndOne(PEXTENSION Extension, PFILE_OBJECT File, NTSTATUS Status) {
    PREQUEST Request = NULL;
    PLIST_ENTRY Entry;
    PIRP Irp = NULL;
    KIRQL Irql;
    KeAcquireSpinLock(&Extension->Lock, &Irql);
    for (Entry = Extension->Requests.Flink; Entry != &Extension->Requests && Irp == NULL;
         Entry = Entry->Flink) {
        Request = CONTAINING_RECORD(Entry, REQUEST, Entry);
        if ((File == NULL || FileOf(Request->Irp) == File) &&
            IoSetCancelRoutine(Request->Irp, NULL) != NULL) {
            Irp = Unlink(Request);
        }
    }
    KeReleaseSpinLock(&Extension->Lock, Irql);
    if (Irp != NULL) {
        End(Request, Irp, Status);
    }
    return Irp != NULL;
}
