/* The framework's requests: whose each is, how it is marked cancelable, and its completion. The
 * steps on its IRP are those of a driver without an IO_CSQ (hand.c):
 *
 *     WdfRequestMarkCancelable[Ex]   arm, test, and disarm if the flag is set
 *     WdfRequestUnmarkCancelable     disarm
 *     EvtRequestCancel               runs once IoCancelIrp has taken the routine; out and done
 *                                    come with WdfRequestComplete
 *
 * A queue's lock is held from the arm to the test, and EvtRequestCancel waits for it: so nobody
 * completes the IRP in between. */
#include "wdfobjects.h"

#include <stdlib.h>

static struct iocsq_wdf_request *requests[IOCSQ_IRPS]; /* by the IRP's number, the newest first:
                                                        * under the state's lock */

/* ---- Handles: 1 + 2 * (IRP's number + IOCSQ_IRPS * use) ---- */
WDFREQUEST iocsq_wdf_handle(const struct iocsq_wdf_request *r) {
    uint64_t word = (uint64_t)r->use * IOCSQ_IRPS + r->irp->index;
    return (WDFREQUEST)(uintptr_t)(2 * word + 1);
}

/* The state's lock is held. */
static struct iocsq_wdf_request **link_of(uint32_t index, uint32_t use) {
    struct iocsq_wdf_request **at = &requests[index];
    while (*at && (*at)->use != use) {
        at = &(*at)->older;
    }
    return at;
}

static struct iocsq_wdf_request *look_up(uint32_t index, uint32_t use) {
    iocsq_lock_framework();
    struct iocsq_wdf_request *r = *link_of(index, use);
    iocsq_unlock_state();
    return r;
}

/* For the driver it is gone once it is completed, unless it has a reference, or just gets the
 * callbacks of its end. The state's lock is held. */
static bool is_gone(const struct iocsq_wdf_request *r) {
    return r->place == IOCSQ_WDF_DONE && r->object.held == 0 && !r->object.ends;
}

struct iocsq_wdf_request *iocsq_wdf_request_of(const struct iocsq_irp *i) {
    return look_up(i->index, i->use);
}

struct iocsq_wdf_request *iocsq_wdf_find(WDFREQUEST handle, const char *call,
                                         struct iocsq_irp **irp) {
    uint64_t word = (uintptr_t)handle / 2;
    uint32_t index = (uint32_t)(word % IOCSQ_IRPS);
    if (!((uintptr_t)handle & 1) || index >= iocsq_irp_count()) {
        iocsq_disagree(NULL, "%s of %p, which is no WDFREQUEST", call, (void *)handle);
    }
    *irp = iocsq_irp_number(index);
    iocsq_lock_framework();
    struct iocsq_wdf_request *r = *link_of(index, (uint32_t)(word / IOCSQ_IRPS));
    r = r && !is_gone(r) ? r : NULL;
    iocsq_unlock_state();
    return r;
}

static const char disobeyed[] =
    "  The thread that completed it did so though WdfRequestUnmarkCancelable had returned "
    "STATUS_CANCELLED: then EvtRequestCancel completes it.";

/* The report is on the IRP if that is in the same use still. */
__attribute__((noreturn)) static void report_completed(WDFREQUEST handle, struct iocsq_irp *irp,
                                                       const char *call) {
    uint32_t use = (uint32_t)((uintptr_t)handle / 2 / IOCSQ_IRPS);
    const struct iocsq_wdf_request *r = look_up(irp->index, use);
    bool same = use == irp->use;
    if (r && r->told && r->told == r->by) {
        iocsq_set_hint(disobeyed);
    }
    if (same && strncmp(call, "WdfRequestComplete", 18) == 0) {
        iocsq_hand_done(irp); /* the schedule ends with it */
    }
    iocsq_disagree(same ? irp : NULL, "%s of irp %u, which was completed before", call, irp->index);
}

struct iocsq_wdf_request *iocsq_wdf_owned(WDFREQUEST handle, const char *call) {
    struct iocsq_irp *irp;
    struct iocsq_wdf_request *r = iocsq_wdf_find(handle, call, &irp);
    if (!r || r->place == IOCSQ_WDF_DONE) {
        report_completed(handle, irp, call);
    }
    if (r->place == IOCSQ_WDF_QUEUED) {
        iocsq_disagree(irp, "%s of irp %u, which is on a queue: the driver doesn't have it", call,
                       irp->index);
    }
    return r;
}

struct iocsq_wdf_request *iocsq_wdf_unmarked(WDFREQUEST handle, const char *call) {
    struct iocsq_wdf_request *r = iocsq_wdf_owned(handle, call);
    if (r->mark == IOCSQ_WDF_MARKED) {
        iocsq_disagree(r->irp,
                       "%s of irp %u, which is marked cancelable: WdfRequestUnmarkCancelable comes "
                       "first",
                       call, r->irp->index);
    }
    return r;
}

/* ---- Beginning and ending ---- */
struct iocsq_wdf_request *iocsq_wdf_begin(struct iocsq_wdf_device *device, PIRP irp) {
    struct iocsq_wdf_request *r =
        iocsq_wdf_make(IOCSQ_WDF_REQUEST, sizeof *r, &device->request_attributes, NULL);
    if (!r) {
        return NULL;
    }
    r->irp = iocsq_irp_at(irp);
    r->use = r->irp->use;
    r->references = 1;
    iocsq_lock_framework();
    r->older = requests[r->irp->index];
    requests[r->irp->index] = r;
    iocsq_unlock_state();
    return r;
}

void iocsq_wdf_refer(struct iocsq_wdf_request *r, int change) {
    iocsq_lock_framework();
    r->references += (uint32_t)change;
    bool ends = r->references == 0 && r->object.held == 0 && !r->object.ends;
    r->object.ends = r->object.ends || ends;
    iocsq_unlock_state();
    if (ends) {
        iocsq_wdf_end(&r->object);
    }
}

void iocsq_wdf_remove(const struct iocsq_wdf_request *r) {
    iocsq_lock_framework();
    *link_of(r->irp->index, r->use) = r->older;
    iocsq_unlock_state();
}

struct iocsq_irp *iocsq_wdf_left(void) {
    for (uint32_t index = 0; index < IOCSQ_IRPS; index++) {
        if (requests[index]) {
            return requests[index]->irp;
        }
    }
    return NULL;
}

KIRQL iocsq_wdf_lock(struct iocsq_wdf_queue *q) {
    return q ? KeAcquireSpinLockRaiseToDpc(&q->lock) : PASSIVE_LEVEL;
}

void iocsq_wdf_unlock(struct iocsq_wdf_queue *q, KIRQL irql) {
    if (q) {
        KeReleaseSpinLock(&q->lock, irql);
    }
}

/* A request that opens a file object, and fails: there will be no IRP_MJ_CLOSE. */
static void end_unopened(const struct iocsq_wdf_request *r, NTSTATUS status) {
    PIO_STACK_LOCATION stack = IoGetCurrentIrpStackLocation(&r->irp->irp);
    if (stack->MajorFunction == IRP_MJ_CREATE && !NT_SUCCESS(status)) {
        iocsq_wdf_end(&iocsq_wdf_file_of(stack->FileObject)->object);
    }
}

/* Of two that complete it at once one is the first. */
void iocsq_wdf_complete(struct iocsq_wdf_request *r, NTSTATUS status, CCHAR boost) {
    struct iocsq_wdf_queue *q = r->queue;
    PIRP irp = &r->irp->irp;
    if (atomic_exchange(&r->place, IOCSQ_WDF_DONE) == IOCSQ_WDF_DONE) {
        report_completed(iocsq_wdf_handle(r), r->irp, "WdfRequestComplete");
    }
    r->by = iocsq_thread();
    KIRQL irql = iocsq_wdf_lock(q);
    if (q) {
        q->owned--;
    }
    iocsq_wdf_unlock(q, irql);
    end_unopened(r, status);
    irp->IoStatus.Status = status;
    IoCompleteRequest(irp, boost);
    iocsq_wdf_refer(r, -1);
    if (q) {
        iocsq_wdf_go_on(q);
    }
}

VOID WdfRequestCompleteWithPriorityBoost(WDFREQUEST Request, NTSTATUS Status, CCHAR PriorityBoost) {
    iocsq_wdf_complete(iocsq_wdf_unmarked(Request, "WdfRequestCompleteWithPriorityBoost"), Status,
                       PriorityBoost);
}

VOID WdfRequestComplete(WDFREQUEST Request, NTSTATUS Status) {
    iocsq_wdf_complete(iocsq_wdf_unmarked(Request, "WdfRequestComplete"), Status, IO_NO_INCREMENT);
}

VOID WdfRequestCompleteWithInformation(WDFREQUEST Request, NTSTATUS Status, ULONG_PTR Information) {
    struct iocsq_wdf_request *r = iocsq_wdf_unmarked(Request, "WdfRequestCompleteWithInformation");
    r->irp->irp.IoStatus.Information = Information;
    iocsq_wdf_complete(r, Status, IO_NO_INCREMENT);
}

/* ---- Cancelable ---- */
bool iocsq_wdf_is_cancelled(struct iocsq_irp *i) {
    iocsq_hand_look(i);
    return i->irp.Cancel;
}

static void call_cancel(const struct iocsq_wdf_request *r) {
    struct iocsq_wdf_entry entry = iocsq_wdf_enter();
    iocsq_log(r->irp, "  EvtRequestCancel of irp %u", r->irp->index);
    r->cancel(iocsq_wdf_handle(r));
    iocsq_wdf_leave(entry, "EvtRequestCancel");
}

/* The routine of a request that is marked. A driver that is wrong may have completed the request by
 * now: then EvtRequestCancel completes it again. */
static VOID NTAPI cancel_marked(PDEVICE_OBJECT device, PIRP irp) {
    struct iocsq_wdf_request *r = iocsq_wdf_request_of(iocsq_irp_at(irp));
    (void)device;
    IoReleaseCancelSpinLock(irp->CancelIrql);
    KIRQL irql = iocsq_wdf_lock(r->queue);
    r->mark = IOCSQ_WDF_TAKEN;
    iocsq_wdf_unlock(r->queue, irql);
    call_cancel(r);
    iocsq_wdf_refer(r, -1);
}

static void expect_markable(const struct iocsq_wdf_request *r, const char *call) {
    if (r->mark == IOCSQ_WDF_MARKED) {
        iocsq_disagree(r->irp, "%s of irp %u, which is marked cancelable already", call,
                       r->irp->index);
    }
    if (!r->queue) {
        iocsq_disagree(r->irp, "%s of irp %u, which came from no queue", call, r->irp->index);
    }
}

/* Whether it was cancelled before, and the mark is taken back. */
static bool mark(WDFREQUEST request, PFN_WDF_REQUEST_CANCEL cancel, const char *call) {
    struct iocsq_wdf_request *r = iocsq_wdf_owned(request, call);
    struct iocsq_irp *i = r->irp;
    expect_markable(r, call);
    iocsq_log(i, "%s(irp %u)", call, i->index);
    iocsq_wdf_refer(r, 1);
    KIRQL irql = iocsq_wdf_lock(r->queue);
    r->cancel = cancel;
    r->mark = IOCSQ_WDF_MARKED;
    IoSetCancelRoutine(&i->irp, cancel_marked);
    bool found = iocsq_wdf_is_cancelled(i) && IoSetCancelRoutine(&i->irp, NULL) != NULL;
    if (found) {
        r->mark = IOCSQ_WDF_FOUND;
    }
    iocsq_wdf_unlock(r->queue, irql);
    return found;
}

NTSTATUS WdfRequestMarkCancelableEx(WDFREQUEST Request, PFN_WDF_REQUEST_CANCEL EvtRequestCancel) {
    static const char call[] = "WdfRequestMarkCancelableEx";
    if (mark(Request, EvtRequestCancel, call)) {
        iocsq_wdf_refer(iocsq_wdf_owned(Request, call), -1);
        return STATUS_CANCELLED;
    }
    return STATUS_SUCCESS;
}

VOID WdfRequestMarkCancelable(WDFREQUEST Request, PFN_WDF_REQUEST_CANCEL EvtRequestCancel) {
    static const char call[] = "WdfRequestMarkCancelable";
    if (mark(Request, EvtRequestCancel, call)) {
        struct iocsq_wdf_request *r = iocsq_wdf_owned(Request, call);
        r->mark = IOCSQ_WDF_TAKEN;
        call_cancel(r);
        iocsq_wdf_refer(r, -1);
    }
}

/* The request of an unmark: it was marked, or a cancel found it, and it is a handle still. */
static struct iocsq_wdf_request *marked(WDFREQUEST request) {
    static const char call[] = "WdfRequestUnmarkCancelable";
    struct iocsq_irp *irp;
    struct iocsq_wdf_request *r = iocsq_wdf_find(request, call, &irp);
    if (!r) {
        iocsq_disagree(NULL, "%s of irp %u, which was completed", call, irp->index);
    }
    if (r->mark == IOCSQ_WDF_UNMARKED) {
        iocsq_disagree(irp, "%s of irp %u, which isn't marked cancelable", call, irp->index);
    }
    if (r->mark == IOCSQ_WDF_FOUND) {
        iocsq_disagree(irp,
                       "%s of irp %u, which isn't marked cancelable: WdfRequestMarkCancelableEx "
                       "returned STATUS_CANCELLED, and the driver completes it",
                       call, irp->index);
    }
    return r;
}

NTSTATUS WdfRequestUnmarkCancelable(WDFREQUEST Request) {
    iocsq_point(); /* EvtRequestCancel may have completed it by the time that its handle is read */
    struct iocsq_wdf_request *r = marked(Request);
    iocsq_wdf_refer(r, 1); /* EvtRequestCancel may complete it */
    iocsq_log(r->irp, "WdfRequestUnmarkCancelable(irp %u)", r->irp->index);
    KIRQL irql = iocsq_wdf_lock(r->queue);
    bool found = r->place != IOCSQ_WDF_DONE && IoSetCancelRoutine(&r->irp->irp, NULL) != NULL;
    r->mark = found ? IOCSQ_WDF_UNMARKED : IOCSQ_WDF_TAKEN;
    r->told = found ? 0 : iocsq_thread();
    iocsq_wdf_unlock(r->queue, irql);
    iocsq_wdf_refer(r, found ? -2 : -1);
    return found ? STATUS_SUCCESS : STATUS_CANCELLED;
}

BOOLEAN WdfRequestIsCanceled(WDFREQUEST Request) {
    return iocsq_wdf_is_cancelled(iocsq_wdf_owned(Request, "WdfRequestIsCanceled")->irp);
}

/* ---- What a request says ---- */
static PIO_STACK_LOCATION location_of(const struct iocsq_wdf_request *r) {
    return IoGetCurrentIrpStackLocation(&r->irp->irp);
}

VOID WdfRequestSetInformation(WDFREQUEST Request, ULONG_PTR Information) {
    iocsq_wdf_owned(Request, "WdfRequestSetInformation")->irp->irp.IoStatus.Information =
        Information;
}

VOID WdfRequestGetParameters(WDFREQUEST Request, PWDF_REQUEST_PARAMETERS Parameters) {
    PIO_STACK_LOCATION stack = location_of(iocsq_wdf_owned(Request, "WdfRequestGetParameters"));
    Parameters->Type = (WDF_REQUEST_TYPE)stack->MajorFunction;
    Parameters->MinorFunction = stack->MinorFunction;
    if (stack->MajorFunction == IRP_MJ_READ || stack->MajorFunction == IRP_MJ_WRITE) {
        Parameters->Parameters.Read.Length = stack->Parameters.Read.Length;
        Parameters->Parameters.Read.Key = stack->Parameters.Read.Key;
        Parameters->Parameters.Read.DeviceOffset = stack->Parameters.Read.ByteOffset.QuadPart;
    } else if (stack->MajorFunction != IRP_MJ_CREATE) {
        Parameters->Parameters.DeviceIoControl.OutputBufferLength =
            stack->Parameters.DeviceIoControl.OutputBufferLength;
        Parameters->Parameters.DeviceIoControl.InputBufferLength =
            stack->Parameters.DeviceIoControl.InputBufferLength;
        Parameters->Parameters.DeviceIoControl.IoControlCode =
            stack->Parameters.DeviceIoControl.IoControlCode;
        Parameters->Parameters.DeviceIoControl.Type3InputBuffer =
            stack->Parameters.DeviceIoControl.Type3InputBuffer;
    }
}

/* The buffer of a read or write, if it has one in this direction; of a device control whose method
 * isn't METHOD_NEITHER. Null: it has none. */
static PVOID buffer_of(const struct iocsq_wdf_request *r, bool output, size_t *length) {
    PIO_STACK_LOCATION stack = location_of(r);
    const IRP *irp = &r->irp->irp;
    bool transfers = stack->MajorFunction == (output ? IRP_MJ_READ : IRP_MJ_WRITE);
    bool controls = stack->MajorFunction == IRP_MJ_DEVICE_CONTROL ||
                    stack->MajorFunction == IRP_MJ_INTERNAL_DEVICE_CONTROL;
    ULONG method = METHOD_FROM_CTL_CODE(stack->Parameters.DeviceIoControl.IoControlCode);
    if (!transfers && (!controls || method == METHOD_NEITHER)) {
        return NULL;
    }
    *length = transfers ? stack->Parameters.Read.Length
              : output  ? stack->Parameters.DeviceIoControl.OutputBufferLength
                        : stack->Parameters.DeviceIoControl.InputBufferLength;
    return irp->MdlAddress && (transfers || output) ? irp->MdlAddress->MappedSystemVa
                                                    : irp->AssociatedIrp.SystemBuffer;
}

/* STATUS_BUFFER_TOO_SMALL: it has no bytes, or fewer than `least`. STATUS_INVALID_DEVICE_REQUEST:
 * such a request has no such buffer. */
static NTSTATUS retrieve(const struct iocsq_wdf_request *r, bool output, size_t least,
                         PVOID *buffer, size_t *length) {
    size_t size = MAXULONG;
    PVOID found = buffer_of(r, output, &size);
    if (!found && size == MAXULONG) {
        return STATUS_INVALID_DEVICE_REQUEST;
    }
    if (!found || size == 0 || size < least) {
        return STATUS_BUFFER_TOO_SMALL;
    }
    *buffer = found;
    if (length) {
        *length = size;
    }
    return STATUS_SUCCESS;
}

NTSTATUS WdfRequestRetrieveInputBuffer(WDFREQUEST Request, size_t MinimumRequiredLength,
                                       PVOID *Buffer, size_t *Length) {
    return retrieve(iocsq_wdf_owned(Request, "WdfRequestRetrieveInputBuffer"), false,
                    MinimumRequiredLength, Buffer, Length);
}

NTSTATUS WdfRequestRetrieveOutputBuffer(WDFREQUEST Request, size_t MinimumRequiredSize,
                                        PVOID *Buffer, size_t *Length) {
    return retrieve(iocsq_wdf_owned(Request, "WdfRequestRetrieveOutputBuffer"), true,
                    MinimumRequiredSize, Buffer, Length);
}

WDFFILEOBJECT WdfRequestGetFileObject(WDFREQUEST Request) {
    const struct iocsq_wdf_request *r = iocsq_wdf_owned(Request, "WdfRequestGetFileObject");
    return (WDFFILEOBJECT)(void *)iocsq_wdf_file_of(location_of(r)->FileObject);
}

WDFQUEUE WdfRequestGetIoQueue(WDFREQUEST Request) {
    return (WDFQUEUE)(void *)iocsq_wdf_owned(Request, "WdfRequestGetIoQueue")->queue;
}

PIRP WdfRequestWdmGetIrp(WDFREQUEST Request) {
    return &iocsq_wdf_owned(Request, "WdfRequestWdmGetIrp")->irp->irp;
}

VOID WdfRequestStopAcknowledge(WDFREQUEST Request, BOOLEAN Requeue) {
    const struct iocsq_wdf_request *r = iocsq_wdf_owned(Request, "WdfRequestStopAcknowledge");
    (void)Requeue;
    iocsq_disagree(r->irp, "WdfRequestStopAcknowledge of irp %u, which EvtIoStop never got",
                   r->irp->index);
}
