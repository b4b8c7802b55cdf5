/* What hold.c and recancel.c share: the list, the cancel routine and the dispatch routine have a
 * reference to a request each, and the last one completes it. */
#ifndef COUNTED_H
#define COUNTED_H
#include "requests.h"

struct _REQUEST {
    LIST_ENTRY Entry; /* under the lock, with the next two */
    BOOLEAN Linked;
    NTSTATUS Status;
    PIRP Irp;
    LONG volatile References; /* of the list, the cancel routine and the dispatch routine */
};

static DRIVER_CANCEL CancelRead;
/* Of the driver: links the request, looks whether it was cancelled before, and drops the dispatch
 * routine's reference. */
static VOID Queue(PEXTENSION Extension, PREQUEST Request);

/* The last reference completes the request. */
static VOID Release(PREQUEST Request) {
    if (InterlockedDecrement(&Request->References) == 0) {
        Complete(Request->Irp, Request->Status);
        ExFreePoolWithTag(Request, POOL_TAG);
    }
}

/* Takes it out of the list, if it is there yet: then the status is this one. */
static VOID Unlink(PEXTENSION Extension, PREQUEST Request, NTSTATUS Status) {
    BOOLEAN WasLinked;
    KIRQL Irql;
    KeAcquireSpinLock(&Extension->Lock, &Irql);
    WasLinked = Request->Linked;
    if (WasLinked) {
        RemoveEntryList(&Request->Entry);
        Request->Linked = FALSE;
        Request->Status = Status;
    }
    KeReleaseSpinLock(&Extension->Lock, Irql);
    if (WasLinked) {
        Release(Request); /* the list's */
    }
}

static VOID NTAPI CancelRead(PDEVICE_OBJECT DeviceObject, PIRP Irp) {
    PREQUEST Request = Irp->Tail.Overlay.DriverContext[0];
    IoReleaseCancelSpinLock(Irp->CancelIrql);
    Unlink(DeviceObject->DeviceExtension, Request, STATUS_CANCELLED);
    Release(Request); /* the cancel routine's */
}

/* Puts it into the list, and sets its cancel routine. Whether the cleanup of its file object has
 * begun: it waits all the same. */
static BOOLEAN Link(PEXTENSION Extension, PREQUEST Request) {
    BOOLEAN Closed;
    KIRQL Irql;
    KeAcquireSpinLock(&Extension->Lock, &Irql);
    InsertTailList(&Extension->Requests, &Request->Entry);
    Request->Linked = TRUE;
    Closed = IsClosed(Request->Irp);
    IoSetCancelRoutine(Request->Irp, CancelRead);
    KeReleaseSpinLock(&Extension->Lock, Irql);
    return Closed;
}

static NTSTATUS NTAPI Read(PDEVICE_OBJECT DeviceObject, PIRP Irp) {
    PREQUEST Request = ExAllocatePoolWithTag(NonPagedPool, sizeof(REQUEST), POOL_TAG);
    if (Request == NULL) {
        return Complete(Irp, STATUS_INSUFFICIENT_RESOURCES);
    }
    Request->Irp = Irp;
    Request->References = 3;
    Irp->Tail.Overlay.DriverContext[0] = Request;
    IoMarkIrpPending(Irp);
    Queue(DeviceObject->DeviceExtension, Request);
    return STATUS_PENDING;
}

/* The first that it can: that no cancel has. */
static BOOLEAN EndOne(PEXTENSION Extension, PFILE_OBJECT File, NTSTATUS Status) {
    PREQUEST Found = NULL;
    PLIST_ENTRY Entry;
    KIRQL Irql;
    KeAcquireSpinLock(&Extension->Lock, &Irql);
    for (Entry = Extension->Requests.Flink; Entry != &Extension->Requests && Found == NULL;
         Entry = Entry->Flink) {
        PREQUEST Request = CONTAINING_RECORD(Entry, REQUEST, Entry);
        if ((File == NULL || FileOf(Request->Irp) == File) &&
            IoSetCancelRoutine(Request->Irp, NULL) != NULL) {
            Found = Request;
            RemoveEntryList(Entry);
            Request->Linked = FALSE;
            Request->Status = Status;
        }
    }
    KeReleaseSpinLock(&Extension->Lock, Irql);
    if (Found != NULL) {
        Release(Found);
        Release(Found); /* the cancel routine's */
    }
    return Found != NULL;
}

#endif
