/* Who ends a request is decided by its state alone, an interlocked word: the cancel routine or a
 * removal. If the removal wins and the cancel routine was taken already, the later of the two
 * completes the request, for which they count references. */
#include "requests.h"

enum { PENDING, CANCELLED, DONE };

struct _REQUEST {
    LIST_ENTRY Entry; /* under the lock, with Linked */
    BOOLEAN Linked;
    LONG volatile State, References; /* of the list or the removal, and of the cancel routine */
    PIRP Irp;
    NTSTATUS Status; /* of a removal that has won */
};

static QUEUE Queue;
static DRIVER_CANCEL CancelRead;

/* The last reference to a request that was removed completes it. */
static VOID Release(PREQUEST Request) {
    if (InterlockedDecrement(&Request->References) == 0) {
        if (Request->State == DONE) {
            Complete(Request->Irp, Request->Status);
        }
        ExFreePoolWithTag(Request, POOL_TAG);
    }
}

static VOID NTAPI CancelRead(PDEVICE_OBJECT DeviceObject, PIRP Irp) {
    PEXTENSION Extension = DeviceObject->DeviceExtension;
    PREQUEST Request = Irp->Tail.Overlay.DriverContext[0];
    BOOLEAN WasLinked;
    KIRQL Irql;
    IoReleaseCancelSpinLock(Irp->CancelIrql);
    if (InterlockedCompareExchange(&Request->State, CANCELLED, PENDING) == PENDING) {
        KeAcquireSpinLock(&Extension->Lock, &Irql);
        WasLinked = Request->Linked;
        if (WasLinked) {
            RemoveEntryList(&Request->Entry);
            Request->Linked = FALSE;
        }
        KeReleaseSpinLock(&Extension->Lock, Irql);
        Complete(Irp, STATUS_CANCELLED);
        if (WasLinked) {
            Release(Request); /* the list's */
        }
    }
    Release(Request);
}

static BOOLEAN Queue(PEXTENSION Extension, PREQUEST Request) {
    Request->Linked = TRUE;
    return ArmEntry(&Extension->Requests, &Request->Entry, Request->Irp, CancelRead);
}

static NTSTATUS NTAPI Read(PDEVICE_OBJECT DeviceObject, PIRP Irp) {
    PREQUEST Request = ExAllocatePoolWithTag(NonPagedPool, sizeof(REQUEST), POOL_TAG);
    if (Request == NULL) {
        return Complete(Irp, STATUS_INSUFFICIENT_RESOURCES);
    }
    RtlZeroMemory(Request, sizeof(REQUEST));
    Request->References = 2;
    Request->Irp = Irp;
    return WaitAs(DeviceObject->DeviceExtension, Request, Irp, Queue);
}

/* The first of this file object, or of any for null. It is in the list no more. */
static PREQUEST Unlink(PEXTENSION Extension, PFILE_OBJECT File) {
    PREQUEST Found = NULL;
    PLIST_ENTRY Entry;
    KIRQL Irql;
    KeAcquireSpinLock(&Extension->Lock, &Irql);
    for (Entry = Extension->Requests.Flink; Entry != &Extension->Requests; Entry = Entry->Flink) {
        PREQUEST Request = CONTAINING_RECORD(Entry, REQUEST, Entry);
        if (File == NULL || FileOf(Request->Irp) == File) {
            RemoveEntryList(Entry);
            Request->Linked = FALSE;
            Found = Request;
            break;
        }
    }
    KeReleaseSpinLock(&Extension->Lock, Irql);
    return Found;
}

/* Whether there was one, which is or will be completed. */
static BOOLEAN EndOne(PEXTENSION Extension, PFILE_OBJECT File, NTSTATUS Status) {
    PREQUEST Request = Unlink(Extension, File);
    if (Request == NULL) {
        return FALSE;
    }
    Request->Status = Status;
    if (InterlockedCompareExchange(&Request->State, DONE, PENDING) == PENDING &&
        IoSetCancelRoutine(Request->Irp, NULL) != NULL) {
        Release(Request); /* the cancel routine's */
    }
    Release(Request);
    return TRUE;
}
