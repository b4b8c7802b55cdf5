/*
 * A cancel-safe queue of IRPs, the oldest first: the callbacks of all queues of a driver.
 *
 * An IRP that waits may be removed by the driver and cancelled by its sender, both at once.
 * IoCsqXxx decides who gets it: either IoCsqRemoveNextIrp returns it to the driver, which completes
 * it, or the framework's cancel routine removes and completes it. The list and its lock are the
 * driver's: the framework reaches them by the six callbacks below.
 */
#pragma once
#include <ntddk.h>
#include <csq.h>

typedef struct _IRP_QUEUE {
    IO_CSQ Csq;
    LIST_ENTRY Irps;  /* under Lock */
    PKSPIN_LOCK Lock; /* queues may share one */
} IRP_QUEUE, *PIRP_QUEUE;

/* Each driver defines these two; they are called under the lock. (IsWanted isn't static, so that a
 * test can ask it.) */
static NTSTATUS Admit(PIRP Irp);               /* STATUS_PENDING, or why the IRP can't be queued */
BOOLEAN IsWanted(PIRP Irp, PVOID PeekContext); /* whether a removal with this peek context asks for
                                                * the IRP */

static PFILE_OBJECT FileOf(PIRP Irp) {
    return IoGetCurrentIrpStackLocation(Irp)->FileObject;
}

/* Completes an IRP that the caller has, and must not touch afterwards. The caller holds no spin
 * lock: a completion routine may call the driver again at once. */
static NTSTATUS Finish(PIRP Irp, NTSTATUS Status, ULONG_PTR Information) {
    Irp->IoStatus.Status = Status;
    Irp->IoStatus.Information = Information;
    IoCompleteRequest(Irp, IO_NO_INCREMENT);
    return Status;
}

/* ---- The callbacks ---- */
/* The first three are called under the lock: they must not wait, nor complete an IRP. */
static PIRP_QUEUE QueueOf(PIO_CSQ Csq) {
    return CONTAINING_RECORD(Csq, IRP_QUEUE, Csq);
}

/* Links the IRP in if it answers a success, and only then. An error is the answer of
 * IoCsqInsertIrpEx too, whose caller still has the IRP. An insert context, whichever it is, sends
 * the IRP to the front. */
static NTSTATUS NTAPI InsertIrp(PIO_CSQ Csq, PIRP Irp, PVOID InsertContext) {
    NTSTATUS Status = Admit(Irp);
    if (!NT_SUCCESS(Status)) {
        return Status;
    }
    if (InsertContext != NULL) {
        InsertHeadList(&QueueOf(Csq)->Irps, &Irp->Tail.Overlay.ListEntry);
    } else {
        InsertTailList(&QueueOf(Csq)->Irps, &Irp->Tail.Overlay.ListEntry);
    }
    return Status;
}

/* The IRP is in the list: the framework calls this once after each insert that succeeded. */
static VOID NTAPI RemoveIrp(PIO_CSQ Csq, PIRP Irp) {
    UNREFERENCED_PARAMETER(Csq);
    RemoveEntryList(&Irp->Tail.Overlay.ListEntry);
}

/* Answers the first IRP that is wanted, or the next one after Irp, and leaves it in the list. The
 * framework asks for the next where a canceller has the one before. A wanted IRP that is passed
 * over here may wait for ever. */
static PIRP NTAPI PeekIrp(PIO_CSQ Csq, PIRP Irp, PVOID PeekContext) {
    PLIST_ENTRY Head = &QueueOf(Csq)->Irps;
    PLIST_ENTRY Entry = Irp != NULL ? Irp->Tail.Overlay.ListEntry.Flink : Head->Flink;
    for (; Entry != Head; Entry = Entry->Flink) {
        PIRP Next = CONTAINING_RECORD(Entry, IRP, Tail.Overlay.ListEntry);
        if (IsWanted(Next, PeekContext)) {
            return Next;
        }
    }
    return NULL;
}

/* The framework keeps the old IRQL for UnlockQueue. Between the two the thread runs at
 * DISPATCH_LEVEL. */
static VOID NTAPI LockQueue(PIO_CSQ Csq, PKIRQL Irql) {
    KeAcquireSpinLock(QueueOf(Csq)->Lock, Irql);
}

static VOID NTAPI UnlockQueue(PIO_CSQ Csq, KIRQL Irql) {
    KeReleaseSpinLock(QueueOf(Csq)->Lock, Irql);
}

/* After RemoveIrp, without the lock: by the cancel routine, or by an insert of an IRP that was
 * cancelled before. */
static VOID NTAPI CompleteCanceledIrp(PIO_CSQ Csq, PIRP Irp) {
    UNREFERENCED_PARAMETER(Csq);
    Finish(Irp, STATUS_CANCELLED, 0);
}

/* ---- What the drivers call ---- */
static VOID InitializeQueue(PIRP_QUEUE Queue, PKSPIN_LOCK Lock) {
    InitializeListHead(&Queue->Irps);
    Queue->Lock = Lock;
    IoCsqInitializeEx(&Queue->Csq, InsertIrp, RemoveIrp, PeekIrp, LockQueue, UnlockQueue,
                      CompleteCanceledIrp);
}

/* Queues an IRP, or completes it where it is refused, and answers what its dispatch routine has to
 * return. In either case the IRP may be completed by then: the caller must not touch it. One that
 * was queued is marked pending by IoCsqInsertIrpEx: so STATUS_PENDING is the answer, even where it
 * is completed by now. */
static NTSTATUS Enqueue(PIRP_QUEUE Queue, PIRP Irp, PVOID InsertContext) {
    NTSTATUS Status = IoCsqInsertIrpEx(&Queue->Csq, Irp, NULL, InsertContext);
    return NT_SUCCESS(Status) ? Status : Finish(Irp, Status, 0);
}

/* Completes all IRPs that are wanted, but for those that a canceller has: it completes them itself,
 * maybe later. */
static VOID CompleteAll(PIRP_QUEUE Queue, PVOID PeekContext, NTSTATUS Status) {
    PIRP Irp;
    while ((Irp = IoCsqRemoveNextIrp(&Queue->Csq, PeekContext)) != NULL) {
        Finish(Irp, Status, 0);
    }
}
