/* The I/O manager's side, which a test calls (iocsq_test.h): requests. files.c has the file
 * objects. */
#include "queues.h"

#include <stdlib.h>

enum { MILLISECOND = 1000000 };
enum { AT_DISPATCH_IN = 4 }; /* cancels, and sends where the policy allows them, come at
                              * DISPATCH_LEVEL */
enum { ONCE_IN = 4, BEHIND = 2000, BEHIND_IN_TURNS = 100000 }; /* of iocsq_stay_behind:
                                                                * microseconds */

static _Atomic bool unbuffered; /* of iocsq_sent_unbuffered */

bool iocsq_sent_unbuffered(void) {
    return unbuffered;
}

ULONG iocsq_patience(void) {
    return iocsq_in_turns() ? 2000 : 10000;
}

/* ---- Requests ---- */
struct _IOCSQ_REQUEST {
    struct iocsq_irp irp;
};

void iocsq_stay_behind(void) {
    if (iocsq_is_bounded()) {
        return; /* a preemption does the same */
    }
    if (iocsq_own.took_over && iocsq_lock_count() == 0 && iocsq_rarely(ONCE_IN)) {
        IocsqPause(iocsq_in_turns() ? BEHIND_IN_TURNS : BEHIND);
    }
}

static PDEVICE_OBJECT top_of(PDEVICE_OBJECT device) {
    while (device->AttachedDevice) {
        device = device->AttachedDevice;
    }
    return device;
}

/* An IRP whose next stack location is filled in. Null: all are under way. */
static struct iocsq_irp *make_irp(PFILE_OBJECT file, UCHAR major) {
    if (major > IRP_MJ_MAXIMUM_FUNCTION) {
        iocsq_fail("there is no major function %02x", major);
    }
    struct iocsq_irp *i = iocsq_new_irp(top_of(file->DeviceObject)->StackSize, false);
    iocsq_lock_state_for(i ? (const void *)i : file, IOCSQ_CHANGES);
    iocsq_touch(file, IOCSQ_LOOKS | IOCSQ_ACQUIRES);
    if (i) {
        i->file = file;
        i->major = major;
    }
    iocsq_take_over_reference();
    iocsq_unlock_state();
    if (!i) {
        return NULL;
    }
    i->irp.RequestorMode = UserMode;
    i->irp.Tail.Overlay.OriginalFileObject = file;
    PIO_STACK_LOCATION stack = IoGetNextIrpStackLocation(&i->irp);
    stack->MajorFunction = major;
    stack->FileObject = file;
    return i;
}

static void check_after_dispatch(struct iocsq_irp *i, NTSTATUS status, KIRQL before) {
    iocsq_lock_state_for(i, IOCSQ_CHANGES);
    bool done = i->place == IOCSQ_DONE;
    i->answered = true;
    i->answer = status;
    if (done) {
        iocsq_check_pending(i);
    }
    iocsq_unlock_state();
    if (status != STATUS_PENDING && !done) {
        iocsq_disagree(i, "the dispatch routine answers %08X, and irp %u was not completed",
                       (unsigned)status, i->index);
    }
    if (iocsq_lock_count() > 0 || KeGetCurrentIrql() != before) {
        iocsq_disagree(i, "the dispatch routine of irp %u returns with a lock or %s IRQL", i->index,
                       KeGetCurrentIrql() < before ? "a lowered" : "a raised");
    }
}

VOID IocsqShowNext(VOID (*Show)(IOCSQ_REQUEST *Request, PVOID Context), PVOID Context) {
    iocsq_own.show = Show;
    iocsq_own.show_context = Context;
}

static void show(struct iocsq_irp *i) {
    void (*shown)(IOCSQ_REQUEST *request, PVOID context) = iocsq_own.show;
    iocsq_own.show = NULL;
    if (shown) {
        shown((IOCSQ_REQUEST *)(void *)i, iocsq_own.show_context);
    }
}

/* If `may`, goes to DISPATCH_LEVEL once in AT_DISPATCH_IN times of this thread; returns where
 * KeLowerIrql goes back to. It isn't drawn, so that a seed's run is the same with it. In the
 * bounded mode it never does: IocsqCancel chooses there. */
static KIRQL raise_in_turn(bool may) {
    bool raises = may && !iocsq_is_bounded() && iocsq_own.raisable++ % AT_DISPATCH_IN == 0;
    return raises ? KfRaiseIrql(DISPATCH_LEVEL) : KeGetCurrentIrql();
}

static bool is_transfer(UCHAR major) {
    return major == IRP_MJ_READ || major == IRP_MJ_WRITE || major == IRP_MJ_DEVICE_CONTROL;
}

static IOCSQ_REQUEST *send(struct iocsq_irp *i, PDEVICE_OBJECT device) {
    iocsq_note_sent(i);
    show(i);
    iocsq_log_sent(i, "dispatch(irp %u, major %02x, file %u)", i->index, i->major,
                   iocsq_file_number(i->file));
    KIRQL before = raise_in_turn(is_transfer(i->major) && iocsq_policy_of(i).DispatchSends);
    KIRQL sent_at = KeGetCurrentIrql();
    NTSTATUS status = iocsq_dispatch(top_of(device), i);
    iocsq_log(i, "dispatch(irp %u) = %08X", i->index, (unsigned)status);
    check_after_dispatch(i, status, sent_at);
    KeLowerIrql(before);
    return (IOCSQ_REQUEST *)(void *)i;
}

/* By which method a read or write is made: as the device's Flags ask for. */
static ULONG method_of(const DEVICE_OBJECT *device) {
    if (device->Flags & DO_BUFFERED_IO) {
        return METHOD_BUFFERED;
    }
    if (!(device->Flags & DO_DIRECT_IO)) {
        unbuffered = true;
    }
    return device->Flags & DO_DIRECT_IO ? METHOD_OUT_DIRECT : METHOD_NEITHER;
}

IOCSQ_REQUEST *IocsqSend(PFILE_OBJECT File, UCHAR MajorFunction, PVOID Buffer, ULONG Length) {
    struct iocsq_irp *i = make_irp(File, MajorFunction);
    if (!i) {
        return NULL;
    }
    bool reads = MajorFunction == IRP_MJ_READ, writes = MajorFunction == IRP_MJ_WRITE;
    struct iocsq_sent sent = { Buffer, reads ? 0 : Length, writes ? 0 : Length, METHOD_BUFFERED };
    if (reads || writes) {
        sent.method = method_of(top_of(File->DeviceObject));
        i->most = Length;
    }
    iocsq_give_buffers(i, sent);
    IoGetNextIrpStackLocation(&i->irp)->Parameters.Read.Length = Length;
    return send(i, File->DeviceObject);
}

IOCSQ_REQUEST *IocsqControl(PFILE_OBJECT File, ULONG IoControlCode, PVOID Buffer, ULONG InputLength,
                            ULONG OutputLength) {
    struct iocsq_irp *i = make_irp(File, IRP_MJ_DEVICE_CONTROL);
    if (!i) {
        return NULL;
    }
    struct iocsq_sent sent = { Buffer, InputLength, OutputLength,
                               METHOD_FROM_CTL_CODE(IoControlCode) };
    iocsq_give_buffers(i, sent);
    PIO_STACK_LOCATION stack = IoGetNextIrpStackLocation(&i->irp);
    stack->Parameters.DeviceIoControl.IoControlCode = IoControlCode;
    stack->Parameters.DeviceIoControl.InputBufferLength = InputLength;
    stack->Parameters.DeviceIoControl.OutputBufferLength = OutputLength;
    stack->Parameters.DeviceIoControl.Type3InputBuffer =
        sent.method == METHOD_NEITHER ? Buffer : NULL;
    i->most = OutputLength;
    return send(i, File->DeviceObject);
}

static const char at_dispatch[] =
    "  The cancel came at DISPATCH_LEVEL: if nobody cancels there, since the callbacks wait, the "
    "driver's policy says PassiveCancels.";

/* In the bounded mode the IRQL is a choice: of a driver without an IO_CSQ, whose cancel routine
 * releases the cancel spin lock itself. A queue's routine is iocsq's own. */
BOOLEAN IocsqCancel(IOCSQ_REQUEST *Request) {
    struct iocsq_irp *i = &Request->irp;
    bool may = iocsq_is_bounded() && iocsq_is_by_hand() && !iocsq_policy_of(i).PassiveCancels;
    bool raises = may && iocsq_choose_value(2) == 1;
    KIRQL before = raises ? KfRaiseIrql(DISPATCH_LEVEL) : KeGetCurrentIrql();
    iocsq_set_hint(raises ? at_dispatch : NULL);
    BOOLEAN found = iocsq_cancel(i);
    iocsq_set_hint(NULL);
    KeLowerIrql(before);
    return found;
}

bool iocsq_is_done(void *irp) {
    return ((struct iocsq_irp *)irp)->place == IOCSQ_DONE;
}

bool iocsq_wait_for(struct iocsq_irp *i, ULONG milliseconds) {
    iocsq_lock_state_for(NULL, 0);
    bool done = iocsq_await(iocsq_is_done, i, milliseconds * (uint64_t)MILLISECOND, "a request");
    iocsq_touch(i, IOCSQ_LOOKS | (done ? IOCSQ_ACQUIRES : 0));
    iocsq_unlock_state();
    return done;
}

BOOLEAN IocsqWait(IOCSQ_REQUEST *Request, ULONG Milliseconds) {
    return iocsq_wait_for(&Request->irp, Milliseconds);
}

NTSTATUS IocsqStatus(IOCSQ_REQUEST *Request) {
    iocsq_lock_state_for(NULL, 0);
    bool done = iocsq_is_done(&Request->irp);
    NTSTATUS status = done ? Request->irp.status : STATUS_PENDING;
    iocsq_touch(Request, IOCSQ_LOOKS | (done ? IOCSQ_ACQUIRES : 0)); /* as IocsqWait */
    iocsq_unlock_state();
    return status;
}

ULONG_PTR IocsqInformation(IOCSQ_REQUEST *Request) {
    return Request->irp.information;
}

VOID IocsqFree(IOCSQ_REQUEST *Request) {
    struct iocsq_irp *i = &Request->irp;
    iocsq_lock_state_for(i, IOCSQ_CHANGES);
    iocsq_touch_irps();
    iocsq_touch(i, IOCSQ_CHANGES);
    if (i->place != IOCSQ_DONE) {
        iocsq_fail("IocsqFree of irp %u, which was not completed", i->index);
    }
    iocsq_check_untouched(i);
    iocsq_free_buffers(i);
    i->used = false;
    iocsq_unlock_state();
}

VOID IocsqComplain(IOCSQ_REQUEST *Request, const char *Text) {
    iocsq_disagree(&Request->irp, "irp %u %s", Request->irp.index, Text);
}

/* Whether it is a test's request that isn't completed or cancelled, but for a cleanup, which nobody
 * cancels, and for what a cleanup left: that should be reported. Then it stays until end_cancel, as
 * a caller of IoCancelIrp has to see to. */
static bool begin_cancel(struct iocsq_irp *i) {
    iocsq_lock_state_for(i, IOCSQ_CHANGES);
    bool may = i->used && !i->own && i->file && i->place != IOCSQ_DONE && !i->irp.Cancel &&
               i->major != IRP_MJ_CLEANUP && !iocsq_is_file_cleaned(i->file);
    i->cancels += may;
    iocsq_unlock_state();
    return may;
}

static void end_cancel(struct iocsq_irp *i) {
    iocsq_lock_state_for(i, IOCSQ_CHANGES);
    i->cancels--;
    iocsq_unlock_state();
}

BOOLEAN IocsqCancelAny(VOID) {
    uint32_t count = iocsq_irp_count();
    struct iocsq_irp *i = iocsq_irp_number(count ? iocsq_draw(count) : 0);
    if (!begin_cancel(i)) {
        return FALSE;
    }
    KIRQL before = raise_in_turn(!iocsq_policy_of(i).PassiveCancels);
    bool raised = before < KeGetCurrentIrql();
    iocsq_set_hint(raised ? at_dispatch : NULL);
    BOOLEAN found = iocsq_cancel(i);
    iocsq_set_hint(NULL);
    KeLowerIrql(before);
    end_cancel(i);
    return found;
}

static NTSTATUS wait_and_free(IOCSQ_REQUEST *request) {
    if (!request) {
        iocsq_fail("out of IRPs");
    }
    if (!IocsqWait(request, iocsq_patience())) {
        iocsq_disagree(&request->irp, "irp %u (major %02x) was never completed", request->irp.index,
                       request->irp.major);
    }
    NTSTATUS status = IocsqStatus(request);
    IocsqFree(request);
    return status;
}

NTSTATUS iocsq_send_and_wait(PFILE_OBJECT file, UCHAR major) {
    return wait_and_free(IocsqSend(file, major, NULL, 0));
}

NTSTATUS iocsq_send_pnp(PDEVICE_OBJECT device, UCHAR minor) {
    struct iocsq_irp *i = iocsq_new_irp(top_of(device)->StackSize, false);
    if (!i) {
        iocsq_fail("out of IRPs");
    }
    i->major = IRP_MJ_PNP;
    i->irp.IoStatus.Status = STATUS_NOT_SUPPORTED;
    PIO_STACK_LOCATION stack = IoGetNextIrpStackLocation(&i->irp);
    stack->MajorFunction = IRP_MJ_PNP;
    stack->MinorFunction = minor;
    return wait_and_free(send(i, device));
}

/* ---- The end: all requests were completed, and their IRPs not touched since ---- */
void iocsq_check_all_completed(void) {
    for (uint32_t at = 0; at < iocsq_irp_count(); at++) {
        struct iocsq_irp *i = iocsq_irp_number(at);
        if (i->used && !i->own && !iocsq_wait_for(i, iocsq_patience())) {
            iocsq_disagree(i, "irp %u %s, and was never completed", i->index, iocsq_place_name(i));
        }
        iocsq_lock_state_for(i, IOCSQ_LOOKS);
        if (i->place == IOCSQ_DONE) {
            iocsq_check_untouched(i);
        }
        iocsq_unlock_state();
    }
}
