/* The IRPs: their table, and their way down through stack locations and up through completion
 * routines. cancels.c has their cancellation. */
#include "internal.h"
#include "poison.h"

#include <stdlib.h>

static struct iocsq_irp *irps; /* IOCSQ_IRPS of them; the state's lock is held to give one out or
                                * take one back */
static uint32_t irp_count;     /* none above was ever used */

__attribute__((constructor)) static void allocate_irps(void) {
    irps = calloc(IOCSQ_IRPS, sizeof *irps);
    if (!irps) {
        iocsq_fail("no memory for the IRPs");
    }
}

void iocsq_forget_irps(void) {
    memset((void *)irps, 0, irp_count * sizeof *irps);
}

/* ---- The table ---- */
struct iocsq_irp *iocsq_irp_at(const void *irp) {
    uintptr_t offset = (uintptr_t)irp - (uintptr_t)irps;
    return offset < IOCSQ_IRPS * sizeof *irps && offset % sizeof *irps == 0
               ? &irps[offset / sizeof *irps]
               : NULL;
}

struct iocsq_irp *iocsq_irp_of_entry(const LIST_ENTRY *entry) {
    return iocsq_irp_at((const void *)((uintptr_t)entry - offsetof(IRP, Tail.Overlay.ListEntry)));
}

struct iocsq_irp *iocsq_irp_number(uint32_t index) {
    return &irps[index];
}

void iocsq_touch_irps(void) {
    iocsq_touch(&irp_count, IOCSQ_CHANGES);
}

uint32_t iocsq_irp_count(void) {
    iocsq_lock_state_for(&irp_count, IOCSQ_LOOKS);
    uint32_t count = irp_count;
    iocsq_unlock_state();
    return count;
}

/* One with a cancel routine of the driver's own. */
static const char *name_by_hand(const struct iocsq_irp *i) {
    switch (i->hand.state) {
    case IOCSQ_HAND_OWED: return "is its cancel routine's, which was taken,";
    case IOCSQ_HAND_HELD:
        return i->hand.begun ? "was taken out by its cancel routine"
                             : "was taken back by IoSetCancelRoutine(Irp, NULL)";
    default: return "waits with a cancel routine of the driver";
    }
}

const char *iocsq_place_name(const struct iocsq_irp *i) {
    static const char *const names[] = { "is in no queue", "is in the queue",
                                         "was removed from the queue", "was taken out as cancelled",
                                         "was completed" };
    bool own = i->place == IOCSQ_HOME || i->place == IOCSQ_REMOVED;
    return own && (i->hand.armed || i->irp.CancelRoutine) ? name_by_hand(i) : names[i->place];
}

static struct iocsq_irp *known(const void *irp, const char *call) {
    struct iocsq_irp *i = iocsq_irp_at(irp);
    if (!i) {
        iocsq_disagree(NULL, "%s of %p, which is no IRP", call, irp);
    }
    return i;
}

struct iocsq_irp *iocsq_in_use(const void *irp, const char *call) {
    struct iocsq_irp *i = known(irp, call);
    iocsq_touch(i, IOCSQ_LOOKS);
    if (i->place == IOCSQ_DONE) {
        iocsq_disagree(i, "%s of irp %u, which was %s", call, i->index,
                       i->own ? "freed" : "completed");
    }
    return i;
}

/* An IRP that isn't used, at random: what comes late for an old use should hit another. The state's
 * lock is held. */
static struct iocsq_irp *find_unused(void) {
    uint32_t from = irp_count < 64 ? 0 : iocsq_draw(irp_count);
    for (uint32_t at = 0; at < irp_count; at++) {
        struct iocsq_irp *i = &irps[(from + at) % irp_count];
        if (!i->used && i->cancels == 0) {
            return i;
        }
    }
    if (irp_count == IOCSQ_IRPS) {
        return NULL;
    }
    irps[irp_count].index = irp_count;
    return &irps[irp_count++];
}

/* ---- What a driver may use until an IRP's completion, or until it frees it ---- */
static const IO_STATUS_BLOCK gone = { { (NTSTATUS)0xA5A5A5A5 }, (ULONG_PTR)0xA5A5A5A5A5A5A5A5 };

static void take_from_driver(struct iocsq_irp *i) {
    i->irp.IoStatus = gone;
    memset(&i->irp.AssociatedIrp, IOCSQ_GONE, sizeof i->irp.AssociatedIrp);
    memset(&i->mdl, IOCSQ_GONE, sizeof i->mdl);
    POISON(&i->irp.AssociatedIrp, sizeof i->irp.AssociatedIrp);
    POISON(&i->irp.IoStatus, sizeof i->irp - offsetof(IRP, IoStatus));
    POISON(i->stack, sizeof i->stack);
}

static void give_to_driver(struct iocsq_irp *i) {
    UNPOISON(&i->irp.AssociatedIrp, sizeof i->irp.AssociatedIrp);
    UNPOISON(&i->irp.IoStatus, sizeof i->irp - offsetof(IRP, IoStatus));
    UNPOISON(i->stack, sizeof i->stack);
}

void iocsq_check_untouched(struct iocsq_irp *i) {
    give_to_driver(i);
    if (i->irp.IoStatus.Status != gone.Status || i->irp.IoStatus.Information != gone.Information) {
        iocsq_disagree(i, "irp %u was written to after it was %s", i->index,
                       i->own ? "freed" : "completed");
    }
    iocsq_check_buffers_untouched(i);
    take_from_driver(i);
}

/* ---- Beginning ---- */
static void begin_irp(struct iocsq_irp *i, int locations) {
    give_to_driver(i);
    memset(i->stack, 0, sizeof i->stack);
    memset(&i->irp.Tail, 0xA5, sizeof i->irp.Tail);
    i->irp.Type = 6;
    i->irp.Size = sizeof(IRP);
    i->irp.CancelRoutine = (PDRIVER_CANCEL)NULL;
    i->irp.PendingReturned = FALSE;
    i->irp.IoStatus.Status = STATUS_SUCCESS;
    i->irp.IoStatus.Information = 0;
    i->irp.AssociatedIrp.SystemBuffer = NULL;
    i->irp.MdlAddress = NULL;
    i->irp.StackCount = (CHAR)locations;
    i->irp.CurrentLocation = (CHAR)(locations + 1);
    i->irp.Tail.Overlay.CurrentStackLocation = &i->stack[locations - 1] + 1;
    i->pending = (uint64_t)i->use << 32;
    i->passed_on = false;
    i->answered = false;
    i->context = NULL;
    i->call_of = NULL;
    i->late = false;
    i->stay = 0;
    memset(&i->hand, 0, sizeof i->hand);
    iocsq_begin_steps(i);
}

struct iocsq_irp *iocsq_new_irp(int locations, bool own) {
    iocsq_lock_state_for(&irp_count, IOCSQ_CHANGES);
    struct iocsq_irp *i = find_unused();
    if (i) {
        iocsq_touch(i, IOCSQ_CHANGES);
        iocsq_begin_memory(&i->irp, sizeof i->irp);
        iocsq_begin_memory(i->stack, sizeof i->stack);
        iocsq_begin_memory(&i->mdl, sizeof i->mdl);
        if (i->use > 0) {
            iocsq_check_untouched(i);
        }
        i->used = true;
        i->own = own;
        i->use++;
        i->file = NULL;
        i->most = UINT32_MAX;
        i->status = STATUS_PENDING;
        i->irp.Cancel = FALSE;
        begin_irp(i, locations);
        i->place = IOCSQ_HOME;
    }
    iocsq_unlock_state();
    return i;
}

/* ---- The way down ---- */
static void mark_pending(struct iocsq_irp *i) {
    iocsq_touch(i, IOCSQ_CHANGES);
    IoGetCurrentIrpStackLocation(&i->irp)->Control |= SL_PENDING_RETURNED;
    atomic_fetch_or(&i->pending, (uint64_t)1 << i->irp.CurrentLocation);
}

VOID NTAPI IoMarkIrpPending(PIRP Irp) {
    if (iocsq_is_by_hand()) {
        iocsq_point(); /* once another thread may have the IRP it is too late */
    }
    struct iocsq_irp *i = iocsq_in_use(Irp, "IoMarkIrpPending");
    if (Irp->CurrentLocation > Irp->StackCount) {
        iocsq_disagree(i, "IoMarkIrpPending of irp %u, which has no current stack location",
                       i->index);
    }
    mark_pending(i);
}

/* What a dispatch routine answers, against what it did with the IRP at this location. The IRP may
 * be in another use by now: then nothing is known of it. */
static void check_answer(const struct iocsq_irp *i, uint32_t use, int location, NTSTATUS status) {
    iocsq_touch(i, IOCSQ_LOOKS);
    uint64_t pending = i->pending;
    bool marked = pending >> location & 1;
    if (pending >> 32 != use || i->passed_on) {
        return;
    }
    if (status == STATUS_PENDING && !marked) {
        iocsq_disagree(
            i, "the dispatch routine answers STATUS_PENDING, and irp %u was not marked pending",
            i->index);
    }
    if (status != STATUS_PENDING && marked) {
        iocsq_disagree(i, "irp %u was marked pending, and its dispatch routine answers %08X",
                       i->index, (unsigned)status);
    }
}

static const char *name_of_major(UCHAR major) {
    switch (major) {
    case IRP_MJ_CREATE: return "IRP_MJ_CREATE";
    case IRP_MJ_CLOSE: return "IRP_MJ_CLOSE";
    case IRP_MJ_READ: return "IRP_MJ_READ";
    case IRP_MJ_WRITE: return "IRP_MJ_WRITE";
    case IRP_MJ_DEVICE_CONTROL: return "IRP_MJ_DEVICE_CONTROL";
    case IRP_MJ_CLEANUP: return "IRP_MJ_CLEANUP";
    default: return "another request";
    }
}

NTSTATUS iocsq_dispatch(PDEVICE_OBJECT device, struct iocsq_irp *i) {
    uint32_t use = i->use;
    int location = i->irp.CurrentLocation - 1;
    if (location < 1) {
        iocsq_disagree(i, "IoCallDriver of irp %u, which has no stack location left", i->index);
    }
    i->irp.CurrentLocation--;
    PIO_STACK_LOCATION stack = --i->irp.Tail.Overlay.CurrentStackLocation;
    stack->DeviceObject = device;
    const char *before = iocsq_own.during;
    iocsq_own.during = name_of_major(stack->MajorFunction);
    NTSTATUS status = device->DriverObject->MajorFunction[stack->MajorFunction](device, &i->irp);
    iocsq_own.during = before;
    iocsq_hand_let_go();
    check_answer(i, use, location, status);
    return status;
}

NTSTATUS NTAPI IofCallDriver(PDEVICE_OBJECT DeviceObject, PIRP Irp) {
    struct iocsq_irp *i = iocsq_in_use(Irp, "IoCallDriver");
    if (i->place != IOCSQ_HOME && i->place != IOCSQ_REMOVED) {
        iocsq_disagree(i, "IoCallDriver of irp %u, which %s", i->index, iocsq_place_name(i));
    }
    if (Irp->CancelRoutine) {
        iocsq_disagree(i, "IoCallDriver of irp %u, which still has a cancel routine", i->index);
    }
    iocsq_log(i, "IoCallDriver(irp %u)", i->index);
    iocsq_touch(i, IOCSQ_CHANGES);
    i->passed_on = true;
    iocsq_point();
    return iocsq_dispatch(DeviceObject, i);
}

static NTSTATUS NTAPI signal_completion(PDEVICE_OBJECT device, PIRP irp, PVOID event) {
    (void)device, (void)irp;
    KeSetEvent(event, IO_NO_INCREMENT, FALSE);
    return STATUS_MORE_PROCESSING_REQUIRED;
}

BOOLEAN NTAPI IoForwardIrpSynchronously(PDEVICE_OBJECT DeviceObject, PIRP Irp) {
    KEVENT completed;
    KeInitializeEvent(&completed, NotificationEvent, FALSE);
    IoCopyCurrentIrpStackLocationToNext(Irp);
    IoSetCompletionRoutine(Irp, signal_completion, &completed, TRUE, TRUE, TRUE);
    IoCallDriver(DeviceObject, Irp);
    KeWaitForSingleObject(&completed, Executive, KernelMode, FALSE, NULL);
    return TRUE;
}

/* ---- The way up ---- */
static void check_completion(struct iocsq_irp *i) {
    if (i->place == IOCSQ_DONE) {
        iocsq_step_again(i, "done");
        iocsq_disagree(i, "IoCompleteRequest of irp %u, which was completed before", i->index);
    }
    iocsq_expect_irql(DISPATCH_LEVEL, "IoCompleteRequest");
    iocsq_log(i, "IoCompleteRequest(irp %u, %08X)", i->index, (unsigned)i->irp.IoStatus.Status);
    if (iocsq_cancel_lock_hold() > 0) {
        iocsq_set_hint("  It is the cancel spin lock: a cancel routine first calls "
                       "IoReleaseCancelSpinLock(Irp->CancelIrql).");
    }
    if (iocsq_spin_lock_count() > 0) {
        iocsq_disagree(i, "IoCompleteRequest of irp %u with a spin lock held", i->index);
    }
    if (i->irp.IoStatus.Status == STATUS_PENDING) {
        iocsq_disagree(i, "IoCompleteRequest of irp %u with STATUS_PENDING", i->index);
    }
    if (i->irp.CancelRoutine) {
        iocsq_disagree(i, "IoCompleteRequest of irp %u, which still has a cancel routine",
                       i->index);
    }
    /* One that was built goes on from the driver, which has no location, to the I/O manager. */
    if (i->irp.CurrentLocation > i->irp.StackCount + iocsq_is_built(i)) {
        iocsq_disagree(i, "IoCompleteRequest of irp %u, which has no current stack location",
                       i->index);
    }
}

static bool is_invoked(const struct iocsq_irp *i, const IO_STACK_LOCATION *stack) {
    return stack->CompletionRoutine &&
           ((stack->Control & SL_INVOKE_ON_SUCCESS && NT_SUCCESS(i->irp.IoStatus.Status)) ||
            (stack->Control & SL_INVOKE_ON_ERROR && !NT_SUCCESS(i->irp.IoStatus.Status)) ||
            (stack->Control & SL_INVOKE_ON_CANCEL && i->irp.Cancel));
}

/* Calls a completion routine. Whether the completion goes on; if not, the driver has the IRP, or
 * has freed it. */
static bool run_completion_routine(struct iocsq_irp *i, const IO_STACK_LOCATION *stack) {
    uint32_t use = i->use;
    bool above = i->irp.CurrentLocation <= i->irp.StackCount;
    PDEVICE_OBJECT device = above ? IoGetCurrentIrpStackLocation(&i->irp)->DeviceObject : NULL;
    iocsq_point();
    iocsq_log(i, "  a completion routine of irp %u", i->index);
    NTSTATUS status = stack->CompletionRoutine(device, &i->irp, stack->Context);
    if (status == STATUS_MORE_PROCESSING_REQUIRED) {
        return false;
    }
    if (i->use != use) {
        iocsq_disagree(i, "a completion routine freed irp %u, and answered %08X", i->index,
                       (unsigned)status);
    }
    return true;
}

/* Goes up through the stack locations. Whether the top was reached. */
static bool go_up(struct iocsq_irp *i) {
    while (i->irp.CurrentLocation <= i->irp.StackCount) {
        const IO_STACK_LOCATION *stack = i->irp.Tail.Overlay.CurrentStackLocation++;
        i->irp.CurrentLocation++;
        i->irp.PendingReturned = (stack->Control & SL_PENDING_RETURNED) != 0;
        if (is_invoked(i, stack)) {
            if (!run_completion_routine(i, stack)) {
                return false;
            }
        } else if (i->irp.PendingReturned && i->irp.CurrentLocation <= i->irp.StackCount) {
            mark_pending(i);
        }
    }
    return true;
}

void iocsq_check_pending(const struct iocsq_irp *i) {
    if (i->answer == STATUS_PENDING && !i->pending_returned) {
        iocsq_disagree(i,
                       "irp %u is completed without the pending mark, and its dispatch routine "
                       "answered STATUS_PENDING: a completion routine did not pass the mark on",
                       i->index);
    }
    if (i->answer != STATUS_PENDING && i->pending_returned) {
        iocsq_disagree(
            i, "irp %u is completed with the pending mark, and its dispatch routine answered %08X",
            i->index, (unsigned)i->answer);
    }
    if (i->answer != STATUS_PENDING && i->answer != i->status && !i->passed_on) {
        iocsq_disagree(i, "the dispatch routine answers %08X, and irp %u was completed with %08X",
                       (unsigned)i->answer, i->index, (unsigned)i->status);
    }
}

static void finish(struct iocsq_irp *i, const void *place) {
    iocsq_lock_state_for(i, IOCSQ_CHANGES | IOCSQ_RELEASES);
    iocsq_release_file(i->file);
    iocsq_end_memory(&i->irp, sizeof i->irp, "IoCompleteRequest", place);
    iocsq_end_memory(i->stack, sizeof i->stack, "IoCompleteRequest", place);
    iocsq_end_buffers(i, place);
    if (atomic_exchange(&i->place, IOCSQ_DONE) == IOCSQ_DONE) {
        iocsq_disagree(i, "IoCompleteRequest of irp %u, which was completed before", i->index);
    }
    i->status = i->irp.IoStatus.Status;
    i->information = i->irp.IoStatus.Information;
    iocsq_cover_end(i->major, i->status);
    if (!NT_ERROR(i->status) && i->information > i->most) {
        iocsq_disagree(i, "irp %u is completed with %llu bytes, and its buffer has %u", i->index,
                       (unsigned long long)i->information, (unsigned)i->most);
    }
    i->pending_returned = i->irp.PendingReturned;
    if (i->answered) {
        iocsq_check_pending(i);
    }
    iocsq_take_buffers(i);
    iocsq_judge_schedule(i);
    take_from_driver(i);
    iocsq_state_changed();
    iocsq_unlock_state();
}

/* The driver completes it from this place. */
static void complete(struct iocsq_irp *i, const void *place) {
    iocsq_touch(i, IOCSQ_CHANGES);
    iocsq_hand_done(i);
    check_completion(i);
    NTSTATUS status = i->irp.IoStatus.Status;
    bool stayed = i->stay != 0; /* another thread may end the stay before this one does */
    iocsq_point();
    iocsq_touch(i, IOCSQ_CHANGES);
    if (stayed || i->stay) {
        iocsq_complete_held(i, status);
    }
    i->completions++;
    IOCSQ_COUNT(Completed);
    if (!go_up(i)) {
        return;
    }
    if (i->own && iocsq_is_built(i)) {
        iocsq_end_built(i);
        return;
    }
    if (i->own) {
        iocsq_disagree(i, "irp %u is of the driver's own, and no completion routine kept it "
                          "(STATUS_MORE_PROCESSING_REQUIRED)", i->index);
    }
    finish(i, place);
}

VOID NTAPI IofCompleteRequest(PIRP Irp, CCHAR PriorityBoost) {
    (void)PriorityBoost;
    iocsq_own.completes++;
    complete(known(Irp, "IoCompleteRequest"), __builtin_return_address(0));
    iocsq_own.completes--;
}

/* ---- IRPs of the driver's own ---- */
PIRP NTAPI IoAllocateIrp(CCHAR StackSize, BOOLEAN ChargeQuota) {
    (void)ChargeQuota;
    if (StackSize < 1 || StackSize > IOCSQ_STACK) {
        iocsq_disagree(NULL, "IoAllocateIrp with %d stack locations", StackSize);
    }
    struct iocsq_irp *i = iocsq_is_scarce("IoAllocateIrp") ? NULL : iocsq_new_irp(StackSize, true);
    if (!i) {
        return NULL;
    }
    iocsq_log_sent(i, "IoAllocateIrp = irp %u", i->index);
    return &i->irp;
}

static struct iocsq_irp *own_irp(PIRP irp, const char *call) {
    struct iocsq_irp *i = known(irp, call);
    if (!i->own || !i->used) {
        iocsq_disagree(i, "%s of irp %u, which %s", call, i->index,
                       i->own ? "was freed before" : "is another's");
    }
    if (iocsq_is_built(i)) {
        iocsq_disagree(i, "%s of irp %u, which the I/O manager built with an event: it frees it",
                       call, i->index);
    }
    if (i->stay || irp->CurrentLocation <= irp->StackCount) {
        iocsq_disagree(i, "%s of irp %u, which %s", call, i->index,
                       i->stay ? iocsq_place_name(i) : "was sent, and not completed");
    }
    return i;
}

void iocsq_end_own(struct iocsq_irp *i) {
    iocsq_touch(i, IOCSQ_CHANGES);
    i->use++;
    i->pending = (uint64_t)i->use << 32;
    i->place = IOCSQ_DONE;
    iocsq_free_built(i);
    take_from_driver(i);
    i->used = false;
}

VOID NTAPI IoFreeIrp(PIRP Irp) {
    iocsq_lock_state_for(&irp_count, IOCSQ_CHANGES);
    struct iocsq_irp *i = own_irp(Irp, "IoFreeIrp");
    iocsq_end_memory(&i->irp, sizeof i->irp, "IoFreeIrp", __builtin_return_address(0));
    iocsq_log(i, "IoFreeIrp(irp %u)", i->index);
    iocsq_end_own(i);
    iocsq_unlock_state();
}

VOID NTAPI IoReuseIrp(PIRP Irp, NTSTATUS Status) {
    iocsq_lock_state_for(Irp, IOCSQ_CHANGES);
    struct iocsq_irp *i = own_irp(Irp, "IoReuseIrp");
    iocsq_log_sent(i, "IoReuseIrp(irp %u)", i->index);
    i->use++;
    Irp->Cancel = FALSE;
    begin_irp(i, Irp->StackCount);
    Irp->IoStatus.Status = Status;
    i->place = IOCSQ_HOME;
    iocsq_unlock_state();
}
