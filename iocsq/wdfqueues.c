/* The framework's queues. A request on one has the framework's own cancel routine, so a driver
 * doesn't see its cancel, unless it asks to (EvtIoCanceledOnQueue). What can be presented at once
 * never is on the queue. */
#include "wdfobjects.h"

static PIRP irp_of(const LIST_ENTRY *entry) {
    return &iocsq_irp_of_entry(entry)->irp;
}

static bool is_sequential(const struct iocsq_wdf_queue *q) {
    return q->config.DispatchType == WdfIoQueueDispatchSequential;
}

/* ---- Presenting requests to the driver ---- */
/* The queue's lock is held. */
static bool may_present(const struct iocsq_wdf_queue *q) {
    switch (q->config.DispatchType) {
    case WdfIoQueueDispatchSequential: return q->owned == 0 && !q->presents;
    case WdfIoQueueDispatchParallel:
        return q->owned < q->config.Settings.Parallel.NumberOfPresentedRequests;
    default: return false;
    }
}

/* Calls the driver, with the request's callback or EvtIoDefault. Its name, or null: it has none. */
static const char *call_driver(struct iocsq_wdf_queue *q, WDFREQUEST request,
                               const IO_STACK_LOCATION *stack) {
    const WDF_IO_QUEUE_CONFIG *config = &q->config;
    WDFQUEUE queue = (WDFQUEUE)(void *)q;
    bool controls = stack->MajorFunction == IRP_MJ_DEVICE_CONTROL;
    bool internal = stack->MajorFunction == IRP_MJ_INTERNAL_DEVICE_CONTROL;
    PFN_WDF_IO_QUEUE_IO_DEVICE_CONTROL control = controls   ? config->EvtIoDeviceControl
                                                 : internal ? config->EvtIoInternalDeviceControl
                                                            : NULL;
    if (control) {
        control(queue, request, stack->Parameters.DeviceIoControl.OutputBufferLength,
                stack->Parameters.DeviceIoControl.InputBufferLength,
                stack->Parameters.DeviceIoControl.IoControlCode);
        return controls ? "EvtIoDeviceControl" : "EvtIoInternalDeviceControl";
    }
    if (stack->MajorFunction == IRP_MJ_READ && config->EvtIoRead) {
        config->EvtIoRead(queue, request, stack->Parameters.Read.Length);
        return "EvtIoRead";
    }
    if (stack->MajorFunction == IRP_MJ_WRITE && config->EvtIoWrite) {
        config->EvtIoWrite(queue, request, stack->Parameters.Write.Length);
        return "EvtIoWrite";
    }
    if (config->EvtIoDefault) {
        config->EvtIoDefault(queue, request);
    }
    return config->EvtIoDefault ? "EvtIoDefault" : NULL;
}

static void present(struct iocsq_wdf_queue *q, struct iocsq_wdf_request *r) {
    IO_STACK_LOCATION stack = *IoGetCurrentIrpStackLocation(&r->irp->irp);
    struct iocsq_wdf_entry entry = iocsq_wdf_enter();
    r->presented = true;
    const char *callback = call_driver(q, iocsq_wdf_handle(r), &stack);
    if (callback) {
        iocsq_wdf_leave(entry, callback);
    } else {
        iocsq_wdf_complete(r, STATUS_INVALID_DEVICE_REQUEST, IO_NO_INCREMENT);
    }
}

/* ---- The list, under the queue's lock ---- */
static bool has_routine(const IRP *irp) {
    iocsq_touch(iocsq_irp_at(irp), IOCSQ_LOOKS);
    return irp->CancelRoutine != NULL;
}

/* Takes the first of this file object out, or if that is null the first of all, but for those that
 * a cancel has: where it is seen before, their routine isn't taken back in vain. Null: there is
 * none. */
static struct iocsq_wdf_request *take_first(struct iocsq_wdf_queue *q, const FILE_OBJECT *file) {
    struct iocsq_wdf_request *found = NULL;
    for (PLIST_ENTRY entry = q->irps.Flink; entry != &q->irps && !found; entry = entry->Flink) {
        PIRP irp = irp_of(entry);
        bool matches = !file || IoGetCurrentIrpStackLocation(irp)->FileObject == file;
        if (matches && has_routine(irp) && IoSetCancelRoutine(irp, NULL)) {
            found = iocsq_wdf_request_of(iocsq_irp_at(irp));
        }
    }
    if (found) {
        RemoveEntryList(&found->irp->irp.Tail.Overlay.ListEntry);
        found->place = IOCSQ_WDF_OWNED;
        q->owned++;
    }
    return found;
}

static struct iocsq_wdf_request *retrieve(struct iocsq_wdf_queue *q, const FILE_OBJECT *file) {
    KIRQL irql = iocsq_wdf_lock(q);
    struct iocsq_wdf_request *r = take_first(q, file);
    iocsq_wdf_unlock(q, irql);
    return r;
}

/* The next one that the driver is to get; `after`: this thread has presented the one before. */
static struct iocsq_wdf_request *next_of(struct iocsq_wdf_queue *q, bool after) {
    KIRQL irql = iocsq_wdf_lock(q);
    if (after) {
        q->presents = false;
    }
    struct iocsq_wdf_request *r = may_present(q) ? take_first(q, NULL) : NULL;
    q->presents = q->presents || (r && is_sequential(q));
    iocsq_wdf_unlock(q, irql);
    return r;
}

static void present_from(struct iocsq_wdf_queue *q, struct iocsq_wdf_request *first) {
    for (struct iocsq_wdf_request *r = first; r; r = next_of(q, is_sequential(q))) {
        present(q, r);
    }
}

void iocsq_wdf_go_on(struct iocsq_wdf_queue *q) {
    if (q->config.DispatchType != WdfIoQueueDispatchManual) {
        present_from(q, next_of(q, false));
    }
}

/* ---- Canceled on the queue ---- */
/* The driver hears of it if it had the request before. */
static void end_cancelled(struct iocsq_wdf_queue *q, struct iocsq_wdf_request *r) {
    if (!r->presented || !q->config.EvtIoCanceledOnQueue) {
        iocsq_wdf_complete(r, STATUS_CANCELLED, IO_NO_INCREMENT);
        return;
    }
    struct iocsq_wdf_entry entry = iocsq_wdf_enter();
    q->config.EvtIoCanceledOnQueue((WDFQUEUE)(void *)q, iocsq_wdf_handle(r));
    iocsq_wdf_leave(entry, "EvtIoCanceledOnQueue");
}

static VOID NTAPI cancel_on_queue(PDEVICE_OBJECT device, PIRP irp) {
    struct iocsq_wdf_request *r = iocsq_wdf_request_of(iocsq_irp_at(irp));
    struct iocsq_wdf_queue *q = r->queue;
    (void)device;
    IoReleaseCancelSpinLock(irp->CancelIrql);
    KIRQL irql = iocsq_wdf_lock(q);
    RemoveEntryList(&irp->Tail.Overlay.ListEntry);
    r->place = IOCSQ_WDF_OWNED;
    q->owned++;
    iocsq_wdf_unlock(q, irql);
    end_cancelled(q, r);
}

void iocsq_wdf_flush(struct iocsq_wdf_device *device, const FILE_OBJECT *file) {
    for (struct iocsq_wdf_queue *q = device->queues; q; q = q->next) {
        for (struct iocsq_wdf_request *r; (r = retrieve(q, file)) != NULL;) {
            end_cancelled(q, r);
        }
    }
}

/* ---- Onto a queue ---- */
/* With the lock held: whether it waits, and not because it was cancelled before. */
static bool insert(struct iocsq_wdf_queue *q, struct iocsq_wdf_request *r, bool first) {
    PIRP irp = &r->irp->irp;
    (first ? InsertHeadList : InsertTailList)(&q->irps, &irp->Tail.Overlay.ListEntry);
    r->place = IOCSQ_WDF_QUEUED;
    IoSetCancelRoutine(irp, cancel_on_queue);
    if (!iocsq_wdf_is_cancelled(r->irp) || !IoSetCancelRoutine(irp, NULL)) {
        return true;
    }
    RemoveEntryList(&irp->Tail.Overlay.ListEntry);
    return false;
}

/* The driver gets it at once, if it may, or else it waits. */
static void put(struct iocsq_wdf_queue *q, struct iocsq_wdf_request *r, bool first) {
    r->queue = q;
    r->mark = IOCSQ_WDF_UNMARKED;
    KIRQL irql = iocsq_wdf_lock(q);
    bool presents = IsListEmpty(&q->irps) && may_present(q);
    bool waits = !presents && insert(q, r, first);
    if (!waits) {
        r->place = IOCSQ_WDF_OWNED;
        q->owned++;
        q->presents = q->presents || (presents && is_sequential(q));
    }
    iocsq_wdf_unlock(q, irql);
    if (presents) {
        present_from(q, r);
    } else if (!waits) {
        end_cancelled(q, r);
    }
}

void iocsq_wdf_arrive(struct iocsq_wdf_queue *q, struct iocsq_wdf_request *r) {
    const IO_STACK_LOCATION *stack = IoGetCurrentIrpStackLocation(&r->irp->irp);
    bool transfers = stack->MajorFunction == IRP_MJ_READ || stack->MajorFunction == IRP_MJ_WRITE;
    if (transfers && stack->Parameters.Read.Length == 0 && !q->config.AllowZeroLengthRequests) {
        iocsq_wdf_complete(r, STATUS_SUCCESS, IO_NO_INCREMENT);
    } else {
        put(q, r, false);
    }
}

/* From the queue of which the driver has it, onto this one. */
static void hand_back(struct iocsq_wdf_request *r, struct iocsq_wdf_queue *q, bool first) {
    struct iocsq_wdf_queue *from = r->queue;
    KIRQL irql = iocsq_wdf_lock(from);
    from->owned--;
    iocsq_wdf_unlock(from, irql);
    put(q, r, first);
    iocsq_wdf_go_on(from);
}

/* STATUS_INVALID_DEVICE_REQUEST: it opens a file object, the queue is that from which the driver
 * has it, or another device's. */
NTSTATUS WdfRequestForwardToIoQueue(WDFREQUEST Request, WDFQUEUE DestinationQueue) {
    static const char call[] = "WdfRequestForwardToIoQueue";
    struct iocsq_wdf_queue *q = iocsq_wdf_known(DestinationQueue, IOCSQ_WDF_QUEUE, call);
    struct iocsq_wdf_request *r = iocsq_wdf_unmarked(Request, call);
    if (!r->queue || r->queue == q || r->queue->device != q->device) {
        return STATUS_INVALID_DEVICE_REQUEST;
    }
    iocsq_log(r->irp, "%s(irp %u)", call, r->irp->index);
    hand_back(r, q, false);
    return STATUS_SUCCESS;
}

/* STATUS_INVALID_DEVICE_REQUEST: it is from no queue whose requests the driver retrieves. */
NTSTATUS WdfRequestRequeue(WDFREQUEST Request) {
    struct iocsq_wdf_request *r = iocsq_wdf_unmarked(Request, "WdfRequestRequeue");
    if (!r->queue || r->queue->config.DispatchType != WdfIoQueueDispatchManual) {
        return STATUS_INVALID_DEVICE_REQUEST;
    }
    iocsq_log(r->irp, "WdfRequestRequeue(irp %u)", r->irp->index);
    hand_back(r, r->queue, true);
    return STATUS_SUCCESS;
}

/* ---- What a driver calls ---- */
/* STATUS_INVALID_DEVICE_STATE: the queue's dispatching is parallel. STATUS_NO_MORE_ENTRIES: no
 * request is there. */
static NTSTATUS retrieve_for_driver(WDFQUEUE queue, const FILE_OBJECT *file, WDFREQUEST *request,
                                    const char *call) {
    struct iocsq_wdf_queue *q = iocsq_wdf_known(queue, IOCSQ_WDF_QUEUE, call);
    *request = NULL;
    if (q->config.DispatchType == WdfIoQueueDispatchParallel) {
        return STATUS_INVALID_DEVICE_STATE;
    }
    struct iocsq_wdf_request *r = retrieve(q, file);
    if (!r) {
        return STATUS_NO_MORE_ENTRIES;
    }
    r->presented = true;
    iocsq_log(r->irp, "%s = irp %u", call, r->irp->index);
    *request = iocsq_wdf_handle(r);
    return STATUS_SUCCESS;
}

NTSTATUS WdfIoQueueRetrieveNextRequest(WDFQUEUE Queue, WDFREQUEST *OutRequest) {
    return retrieve_for_driver(Queue, NULL, OutRequest, "WdfIoQueueRetrieveNextRequest");
}

NTSTATUS WdfIoQueueRetrieveRequestByFileObject(WDFQUEUE Queue, WDFFILEOBJECT FileObject,
                                               WDFREQUEST *OutRequest) {
    static const char call[] = "WdfIoQueueRetrieveRequestByFileObject";
    const struct iocsq_wdf_file *file = iocsq_wdf_known(FileObject, IOCSQ_WDF_FILE, call);
    return retrieve_for_driver(Queue, file->wdm, OutRequest, call);
}

/* STATUS_INSUFFICIENT_RESOURCES: no memory. STATUS_INVALID_DEVICE_REQUEST: the device has a default
 * queue already. */
NTSTATUS WdfIoQueueCreate(WDFDEVICE Device, PWDF_IO_QUEUE_CONFIG Config,
                          PWDF_OBJECT_ATTRIBUTES QueueAttributes, WDFQUEUE *Queue) {
    struct iocsq_wdf_device *d = iocsq_wdf_known(Device, IOCSQ_WDF_DEVICE, "WdfIoQueueCreate");
    if (Config->DefaultQueue && d->default_queue) {
        return STATUS_INVALID_DEVICE_REQUEST;
    }
    struct iocsq_wdf_queue *q = iocsq_wdf_make(IOCSQ_WDF_QUEUE, sizeof *q, QueueAttributes, d);
    if (!q) {
        return STATUS_INSUFFICIENT_RESOURCES;
    }
    q->device = d;
    q->config = *Config;
    q->next = d->queues;
    d->queues = q;
    d->default_queue = Config->DefaultQueue ? q : d->default_queue;
    KeInitializeSpinLock(&q->lock);
    InitializeListHead(&q->irps);
    if (Queue) {
        *Queue = (WDFQUEUE)(void *)q;
    }
    return STATUS_SUCCESS;
}

WDFDEVICE WdfIoQueueGetDevice(WDFQUEUE Queue) {
    struct iocsq_wdf_queue *q = iocsq_wdf_known(Queue, IOCSQ_WDF_QUEUE, "WdfIoQueueGetDevice");
    return (WDFDEVICE)(void *)q->device;
}
