/* IoSetCancelRoutine and IoCancelIrp. The cancel routine of an IRP in an IO_CSQ is the queue's:
 * queue.c has it. */
#include "internal.h"

PDRIVER_CANCEL NTAPI IoSetCancelRoutine(PIRP Irp, PDRIVER_CANCEL CancelRoutine) {
    struct iocsq_irp *i = iocsq_in_use(Irp, "IoSetCancelRoutine");
    if (i->place == IOCSQ_LISTED) {
        iocsq_disagree(i, "IoSetCancelRoutine of irp %u, which is in a cancel-safe queue",
                       i->index);
    }
    iocsq_point();
    iocsq_touch(i, IOCSQ_SYNC);
    iocsq_log(i, "IoSetCancelRoutine(irp %u, %s)", i->index,
              CancelRoutine ? "one of the driver" : "none");
    if (CancelRoutine && iocsq_is_by_hand()) {
        i->late = iocsq_is_closing(i->file); /* before a cleanup's check can find the routine */
    }
    PDRIVER_CANCEL before = atomic_exchange(&Irp->CancelRoutine, CancelRoutine);
    iocsq_hand_set(i, CancelRoutine != NULL, before != NULL, __builtin_return_address(0));
    return before;
}

/* ---- A cancel routine of the driver's own ---- */
/* `i` is the IRP while it is in the same use; null: it was completed, and may be another's. */
static void check_return(const struct iocsq_irp *i, uint32_t index, KIRQL before) {
    if (iocsq_cancel_lock_hold() > 0) {
        iocsq_disagree(i, "the cancel routine of irp %u returns with the cancel spin lock, which "
                          "it has to release: IoReleaseCancelSpinLock(Irp->CancelIrql)", index);
    }
    if (KeGetCurrentIrql() != before) {
        iocsq_disagree(i, "the cancel routine of irp %u returns at IRQL %u, and IoCancelIrp came "
                          "from %u (Irp->CancelIrql)", index, KeGetCurrentIrql(), before);
    }
}

/* Runs one that this thread has taken, with the cancel spin lock held, which it releases. */
static void run_routine(struct iocsq_irp *i, PDRIVER_CANCEL routine, KIRQL before) {
    uint32_t use = i->use, index = i->index;
    struct iocsq_irp *outer = iocsq_own.routine_of;
    PDEVICE_OBJECT device = IoGetCurrentIrpStackLocation(&i->irp)->DeviceObject;
    i->irp.CancelIrql = before;
    iocsq_cover(IOCSQ_CANCEL_BY_DRIVER);
    if (iocsq_is_by_hand()) {
        iocsq_long_point(2); /* the routine is taken, and has yet to run */
        iocsq_log(i, "  the driver's cancel routine of irp %u", index);
    }
    iocsq_own.routine_of = i;
    iocsq_hand_begin(i);
    routine(device, &i->irp);
    iocsq_own.routine_of = outer;
    iocsq_hand_let_go();
    bool same = i->use == use;
    if (same) {
        iocsq_hand_return(i);
    }
    check_return(same ? i : NULL, index, before);
}

/* ---- IoCancelIrp ---- */
/* Takes the routine of the driver's own, if there is one, with the cancel spin lock held. Whether
 * there was. */
static bool take_routine(struct iocsq_irp *i, KIRQL before) {
    iocsq_touch(i, IOCSQ_SYNC);
    PDRIVER_CANCEL routine = atomic_exchange(&i->irp.CancelRoutine, (PDRIVER_CANCEL)NULL);
    iocsq_hand_take(i, routine != NULL);
    if (!routine) {
        IoReleaseCancelSpinLock(before);
        return false;
    }
    run_routine(i, routine, before);
    return true;
}

/* As Windows does it, the flag is set with the cancel spin lock held: so a driver may look at the
 * flag before it sets its routine, if it has that lock from the one to the other. */
static bool cancel_by_hand(struct iocsq_irp *i) {
    KIRQL before;
    IoAcquireCancelSpinLock(&before);
    iocsq_touch(i, IOCSQ_CHANGES);
    i->irp.Cancel = TRUE;
    iocsq_hand_flag(i);
    if (!i->irp.CancelRoutine) {
        iocsq_cover_cancel(i, false);
    }
    return take_routine(i, before);
}

/* Beside an IO_CSQ the flag is set without that lock, which the queue's own routine has for no
 * longer than it takes to release it: so more orders come. */
static bool cancel_beside_queues(struct iocsq_irp *i) {
    KIRQL before;
    iocsq_touch(i, IOCSQ_CHANGES);
    i->irp.Cancel = TRUE;
    iocsq_hand_flag(i);
    iocsq_long_point(8);
    if (iocsq_cancel_queued(i)) {
        return true;
    }
    IoAcquireCancelSpinLock(&before);
    return take_routine(i, before);
}

BOOLEAN iocsq_cancel(struct iocsq_irp *i) {
    const char *outer = iocsq_own.during;
    iocsq_log(i, "IoCancelIrp(irp %u)", i->index);
    iocsq_own.during = "IoCancelIrp";
    bool found = iocsq_is_by_hand() ? cancel_by_hand(i) : cancel_beside_queues(i);
    iocsq_own.during = outer;
    return found;
}

/* By the driver, for which an IRP that was completed or freed isn't there any more. */
BOOLEAN NTAPI IoCancelIrp(PIRP Irp) {
    return iocsq_cancel(iocsq_in_use(Irp, "IoCancelIrp"));
}
