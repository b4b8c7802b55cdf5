/* The queue calls of iocsq.h: the driver's callbacks keep the driver's list, a reference queue of
 * csq.h decides beside it, and the first disagreement of the two ends the program. */
#include "queues.h"

/* ---- The driver's callbacks, with what is asked of each ---- */
struct held {
    KIRQL irql, irql_before;
    uint32_t locks_before;
    struct iocsq_watch watch_before;
};

static void check_lock(struct iocsq_queue *q, const struct held *held) {
    if (iocsq_lock_count() == held->locks_before) {
        iocsq_disagree(NULL, "CsqAcquireLock took no lock");
    }
    const void *expected = NULL, *lock = iocsq_last_lock();
    if (!atomic_compare_exchange_strong(&q->lock, &expected, lock) && expected != lock) {
        iocsq_disagree(NULL, "CsqAcquireLock took another lock than before");
    }
    uint32_t other = atomic_exchange(&q->inside, iocsq_thread());
    if (other) {
        iocsq_disagree(NULL, "CsqAcquireLock let this thread in beside t%u", other);
    }
}

/* What another thread writes there is never this one's number. */
IOCSQ_COMMUTES static bool is_inside(const struct iocsq_queue *q) {
    return q->inside == iocsq_thread();
}

static struct held enter(struct iocsq_queue *q) {
    struct held held = { .irql_before = KeGetCurrentIrql(), .locks_before = iocsq_lock_count() };
    if (is_inside(q)) {
        iocsq_disagree(NULL, "a call of the queue from inside one of its callbacks");
    }
    iocsq_point();
    iocsq_cover_call(q, IOCSQ_ACQUIRE);
    q->csq->CsqAcquireLock(q->csq, &held.irql);
    iocsq_touch(q, IOCSQ_CHANGES);
    check_lock(q, &held);
    held.watch_before = iocsq_watch_lock(q->lock);
    iocsq_point();
    iocsq_audit(q, "as the lock was taken");
    return held;
}

/* `last`: the call does nothing else. Then it needs the queue no more once the lock is released: a
 * driver may free it, even before this thread runs again. */
static void leave(struct iocsq_queue *q, struct held held, bool last) {
    PIO_CSQ csq = q->csq;
    iocsq_point();
    if (iocsq_end_watch(held.watch_before) > 0) {
        iocsq_disagree(NULL, "a callback of the queue released its lock");
    }
    iocsq_cover_call(q, IOCSQ_RELEASE);
    iocsq_touch(q, IOCSQ_CHANGES);
    iocsq_touch(&q->calls, IOCSQ_LOOKS);
    q->inside = 0;
    if (last) {
        q->calls--;
    }
    csq->CsqReleaseLock(csq, held.irql);
    if (iocsq_lock_count() != held.locks_before) {
        iocsq_disagree(NULL, "CsqReleaseLock left a lock taken");
    }
    if (KeGetCurrentIrql() != held.irql_before) {
        iocsq_disagree(NULL, "CsqReleaseLock left IRQL %u, and CsqAcquireLock found %u",
                       KeGetCurrentIrql(), held.irql_before);
    }
    iocsq_point();
}

/* ---- What nobody changes of a queued IRP ---- */
/* A cancel routine reads DriverContext[3] without a lock. */
static struct iocsq_tail tail_of(const IRP *irp) {
    struct iocsq_tail tail = { irp->Tail.Overlay.DriverContext[3], irp->Tail.Overlay.Thread,
                               irp->Tail.Overlay.AuxiliaryBuffer,
                               irp->Tail.Overlay.CurrentStackLocation,
                               irp->Tail.Overlay.OriginalFileObject };
    return tail;
}

void iocsq_check_tail(const struct iocsq_irp *i, const char *when) {
    struct iocsq_tail is = tail_of(&i->irp), was = i->tail;
    const char *changed = is.context != was.context       ? "DriverContext[3]"
                          : is.thread != was.thread       ? "Tail.Overlay.Thread"
                          : is.auxiliary != was.auxiliary ? "Tail.Overlay.AuxiliaryBuffer"
                          : is.location != was.location   ? "Tail.Overlay.CurrentStackLocation"
                          : is.file != was.file           ? "Tail.Overlay.OriginalFileObject"
                                                          : NULL;
    if (changed) {
        iocsq_disagree(i, "%s: %s of irp %u was changed", when, changed, i->index);
    }
}

static void remove_by_driver(struct iocsq_queue *q, struct iocsq_irp *i) {
    iocsq_check_tail(i, "while it was in the queue");
    iocsq_log(i, "  CsqRemoveIrp(irp %u)", i->index);
    iocsq_cover_call(q, IOCSQ_REMOVE);
    q->csq->CsqRemoveIrp(q->csq, &i->irp);
    if (i->context) {
        i->context->Irp = NULL;
        i->context = NULL;
    }
    iocsq_audit(q, "after CsqRemoveIrp");
}

/* The last that is done in a call. With the IRP's completion the call needs the queue no more: a
 * driver may free it. */
static void complete_by_driver(struct iocsq_queue *q, struct iocsq_irp *i) {
    uint32_t completions = i->completions;
    iocsq_point();
    iocsq_touch(i, IOCSQ_CHANGES);
    iocsq_log(i, "  CsqCompleteCanceledIrp(irp %u)", i->index);
    i->call_of = q;
    iocsq_cover_call(q, IOCSQ_COMPLETE); /* first, as the driver may free the queue with the
                                          * completion */
    iocsq_cover_cancelled(q);
    q->csq->CsqCompleteCanceledIrp(q->csq, &i->irp);
    iocsq_touch(i, IOCSQ_LOOKS);
    if (completions == i->completions && !q->policy.CompletesLater) {
        iocsq_disagree(i, "CsqCompleteCanceledIrp returned, and irp %u was not completed",
                       i->index);
    }
    IOCSQ_COUNT(Cancelled);
}

/* ---- Cancellation ---- */
void iocsq_cover_cancel(const struct iocsq_irp *i, bool found) {
    int place = i->place;
    iocsq_cover(found                      ? IOCSQ_CANCEL_IN_QUEUE
                : place == IOCSQ_DONE      ? IOCSQ_CANCEL_AFTER_COMPLETION
                : place == IOCSQ_REMOVED   ? IOCSQ_CANCEL_AFTER_REMOVAL
                                           : IOCSQ_CANCEL_BEFORE);
}

bool iocsq_cancel_queued(struct iocsq_irp *i) {
    struct iocsq_claim claim;
    bool found = iocsq_reference_mark(i, &claim);
    iocsq_cover_cancel(i, found);
    if (!found) {
        return false;
    }
    struct iocsq_queue *q = iocsq_queue_at(claim.reference->index);
    iocsq_touch(&q->calls, IOCSQ_LOOKS);
    q->calls++;
    iocsq_long_point(2); /* the routine is taken, and has yet to run */
    iocsq_log(i, "  the queue's cancel routine of irp %u", i->index);
    struct held held = enter(q);
    iocsq_reference_run_routine(&claim, i);
    remove_by_driver(q, i);
    leave(q, held, false);
    complete_by_driver(q, i);
    return true;
}

/* ---- Insertion ---- */
/* A driver may insert an IRP again that a removal got, and that isn't completed. */
static void check_insert(struct iocsq_irp *i) {
    iocsq_touch(i, IOCSQ_CHANGES);
    if (i->irp.CancelRoutine) {
        iocsq_disagree(i, "IoCsqInsertIrp of irp %u, which has a cancel routine of the driver",
                       i->index);
    }
    switch (iocsq_reference_judge_again(i)) {
    case CSQ_USE_AGREES: break;
    case CSQ_USE_LISTED:
        iocsq_disagree(i,
                       "IoCsqInsertIrp of irp %u, which is in a queue already: only what was "
                       "removed may be inserted again",
                       i->index);
    case CSQ_USE_GOT_CANCELLED:
        iocsq_disagree(i,
                       "IoCsqInsertIrp of irp %u, which was got cancelled: what "
                       "CsqCompleteCanceledIrp gets has to be completed",
                       i->index);
    default:
        iocsq_disagree(
            i, "IoCsqInsertIrp of irp %u, which was completed: it isn't the driver's any more",
            i->index);
    }
}

/* A context is of one IRP at a time: the removal of that one clears it. */
static void check_context(const struct iocsq_irp *i, const IO_CSQ_IRP_CONTEXT *context) {
    const struct iocsq_irp *other = context ? iocsq_irp_at(context->Irp) : NULL;
    if (other && other->context == context && other->place == IOCSQ_LISTED) {
        iocsq_disagree(i,
                       "IoCsqInsertIrp of irp %u with a context that irp %u is in the queue with",
                       i->index, other->index);
    }
}

static NTSTATUS insert_by_driver(PIO_CSQ csq, struct iocsq_irp *i, PIO_CSQ_IRP_CONTEXT context,
                                 PVOID insert_context) {
    NTSTATUS status = STATUS_PENDING;
    i->irp.Tail.Overlay.DriverContext[3] = context ? (PVOID)context : (PVOID)csq;
    i->tail = tail_of(&i->irp);
    if (context) {
        IO_CSQ_IRP_CONTEXT filled = { IO_TYPE_CSQ_IRP_CONTEXT, &i->irp, csq };
        *context = filled;
    }
    iocsq_cover_call(iocsq_queue_of(csq), IOCSQ_INSERT);
    if (csq->Type == IO_TYPE_CSQ_EX) {
        void (*insert)(void) = (void (*)(void))csq->CsqInsertIrp;
        status = ((PIO_CSQ_INSERT_IRP_EX)insert)(csq, &i->irp, insert_context);
        iocsq_log(i, "  CsqInsertIrpEx(irp %u) = %08X", i->index, (unsigned)status);
    } else {
        iocsq_log(i, "  CsqInsertIrp(irp %u)", i->index);
        csq->CsqInsertIrp(csq, &i->irp);
    }
    iocsq_check_tail(i, "after the insert callback");
    if (!NT_SUCCESS(status) && context) {
        context->Irp = NULL;
    }
    return status;
}

/* A request that was on its way as a cleanup began may be queued after it, and has to be completed
 * all the same. What the driver had before the cleanup, that ends. */
static void note_file(const struct iocsq_queue *q, struct iocsq_irp *i, bool again) {
    PFILE_OBJECT file = iocsq_irp_file(i);
    uint32_t number = iocsq_file_number(file);
    if (again && iocsq_is_cleaned(file)) {
        if (iocsq_reference_goes_on(&q->reference, i, number)) {
            iocsq_step(i, i->pass, "rearm");
        }
        iocsq_disagree(i, "irp %u is put back into the queue after IRP_MJ_CLEANUP of its file %u",
                       i->index, number);
    }
    i->late = iocsq_is_closing(file);
    if (i->late) {
        iocsq_cover(IOCSQ_CLEANUP_BEFORE_INSERT);
    }
}

static void cover_insert(struct iocsq_queue *q, bool again) {
    IOCSQ_COUNT(Inserted);
    iocsq_cover_insert(q);
    if (again) {
        iocsq_cover(IOCSQ_PUT_BACK);
    }
}

static void expect_held(const struct iocsq_irp *i, bool held) {
    if (!held) {
        iocsq_disagree(i, "irp %u is put back while another thread completes or inserts it",
                       i->index);
    }
}

static bool put_back_into_reference(struct iocsq_reference *r, struct iocsq_irp *i, bool first) {
    uint32_t code = iocsq_reference_put_back(r, i, first);
    expect_held(i, code != CSQ_NOT_HELD);
    return code == CSQ_OK;
}

/* Inserts into the reference what the driver inserted; `again`: a removal got it before. Whether it
 * is pending; if not it was cancelled before. */
static bool insert_into_reference(struct iocsq_queue *q, struct iocsq_irp *i, PVOID insert_context,
                                  bool again) {
    struct iocsq_claim none;
    uint32_t file = iocsq_file_number(iocsq_irp_file(i));
    iocsq_own.hushed++;
    bool first = q->policy.Place && q->policy.Place(&i->irp, insert_context) != 0;
    iocsq_own.hushed--;
    bool goes_on = again && iocsq_reference_goes_on(&q->reference, i, file);
    if (!goes_on) {
        expect_held(i, !again || iocsq_reference_leave(i));
        iocsq_reference_join(&q->reference, i);
    }
    iocsq_point();
    iocsq_touch(i, IOCSQ_CHANGES);
    expect_held(i, i->stay != 0);
    /* A cancel sets the IRP's flag, then looks for its stay; here the stay comes first. So one of
     * the two sees it. */
    if (i->irp.Cancel) {
        iocsq_reference_mark(i, &none); /* takes nothing: no routine is set yet */
    }
    return goes_on ? put_back_into_reference(&q->reference, i, first)
                   : iocsq_reference_insert(&q->reference, i, file, first);
}

/* The reference knows of a cancel that came before. The framework reads the IRP's flag alone. */
static void check_flag_stays(const struct iocsq_irp *i) {
    if (!i->irp.Cancel) {
        iocsq_disagree(
            i, "irp %u was cancelled, and the driver cleared its Cancel flag before it put it back",
            i->index);
    }
}

NTSTATUS NTAPI IoCsqInsertIrpEx(PIO_CSQ Csq, PIRP Irp, PIO_CSQ_IRP_CONTEXT Context,
                                PVOID InsertContext) {
    struct iocsq_queue *q = iocsq_queue_of(Csq);
    iocsq_touch(&q->calls, IOCSQ_LOOKS);
    q->calls++;
    struct iocsq_irp *i = iocsq_known(Irp, "IoCsqInsertIrp of");
    struct held held = enter(q);
    iocsq_log(i, "IoCsqInsertIrp%s(irp %u)", Csq->Type == IO_TYPE_CSQ_EX ? "Ex" : "", i->index);
    bool again = i->stay != 0; /* looked at first: another thread may end the stay meanwhile */
    check_insert(i);
    check_context(i, Context);
    NTSTATUS status = insert_by_driver(Csq, i, Context, InsertContext);
    if (!NT_SUCCESS(status)) {
        IOCSQ_COUNT(Refused);
        iocsq_cover(iocsq_is_closing(iocsq_irp_file(i)) ? IOCSQ_CLEANUP_BEFORE_REFUSAL
                                                        : IOCSQ_REFUSED);
        iocsq_audit(q, "after an insert that the driver refused");
        leave(q, held, true);
        return status;
    }
    note_file(q, i, again);
    cover_insert(q, again);
    IoMarkIrpPending(Irp);
    i->context = Context;
    if (insert_into_reference(q, i, InsertContext, again)) {
        iocsq_audit(q, "after the insert callback");
        leave(q, held, true);
        iocsq_stay_behind();
        return status;
    }
    iocsq_log(i, "  irp %u was cancelled before", i->index);
    iocsq_cover(IOCSQ_CANCEL_AT_INSERT);
    check_flag_stays(i);
    remove_by_driver(q, i);
    leave(q, held, false);
    complete_by_driver(q, i);
    return status;
}

VOID NTAPI IoCsqInsertIrp(PIO_CSQ Csq, PIRP Irp, PIO_CSQ_IRP_CONTEXT Context) {
    IoCsqInsertIrpEx(Csq, Irp, Context, NULL);
}

/* ---- Removal ---- */
static void log_peek(const struct iocsq_irp *before, const struct iocsq_irp *answer) {
    const char *from = before ? "after that" : "from the first";
    if (answer) {
        iocsq_log(answer, "  CsqPeekNextIrp(%s) = irp %u", from, answer->index);
    } else {
        iocsq_log(NULL, "  CsqPeekNextIrp(%s) = none", from);
    }
}

/* Whether the driver gets the IRP that it answered: not where a canceller has it. */
static bool take(struct iocsq_queue *q, struct iocsq_irp *answer) {
    uint32_t verdict = iocsq_reference_remove(&q->reference, answer);
    /* A last resort, which no driver was seen to reach: a peek's answer was just found in this
     * queue's list, a context has its IRP until that is removed, and check_lock ends the program
     * where the lock lets another thread in. */
    if (verdict == CSQ_REMOVE_NOT_LISTED) {
        iocsq_disagree(answer, "irp %u has gone from the list while this thread has its lock",
                       answer->index);
    }
    if (verdict == CSQ_REMOVE_CLAIMED) {
        iocsq_log(answer, "    irp %u is a canceller's", answer->index);
        iocsq_cover(IOCSQ_CANCEL_BESIDE_REMOVAL);
    }
    return verdict == CSQ_REMOVE_AGREES;
}

/* What a peek context means is the policy's to say, unless it is null or a file object. */
static void check_peek_context(const struct iocsq_queue *q, PVOID context) {
    if (context && !q->policy.Match && iocsq_file_number(context) == IOCSQ_FILES) {
        iocsq_own.report_status = IOCSQ_NO_POLICY;
        iocsq_set_hint(
            "  If the driver means it, the Match of its policy says what it means. Otherwise it "
            "isn't IoGetCurrentIrpStackLocation(Irp)->FileObject, but its FsContext, say.");
        iocsq_disagree(NULL, "IoCsqRemoveNextIrp with a peek context that is no file object");
    }
}

PIRP NTAPI IoCsqRemoveNextIrp(PIO_CSQ Csq, PVOID PeekContext) {
    struct iocsq_queue *q = iocsq_queue_of(Csq);
    check_peek_context(q, PeekContext);
    iocsq_touch(&q->calls, IOCSQ_LOOKS);
    q->calls++;
    struct held held = enter(q);
    struct iocsq_search s = { .q = q, .context = PeekContext, .when = "in IoCsqRemoveNextIrp" };
    struct iocsq_irp *answer, *before;
    iocsq_log(NULL, "IoCsqRemoveNextIrp(%s)", PeekContext ? "a peek context" : "any");
    if (!PeekContext) {
        iocsq_note_null_context(q);
    }
    iocsq_look_ahead(&s);
    do {
        before = s.before;
        answer = iocsq_peek(&s);
        log_peek(before, answer);
    } while (answer && !take(q, answer));
    if (answer) {
        IOCSQ_COUNT(Removed);
        iocsq_cover_removal(q);
        remove_by_driver(q, answer);
    }
    leave(q, held, true);
    iocsq_long_point(8); /* the driver has the IRP, and has yet to say so elsewhere */
    return answer ? &answer->irp : NULL;
}

/* The IRP that a context names, if it names one. */
static struct iocsq_irp *irp_of_context(PIO_CSQ csq, PIO_CSQ_IRP_CONTEXT context) {
    if (!context->Irp) {
        iocsq_log(NULL, "IoCsqRemoveIrp(a context without IRP)");
        return NULL;
    }
    struct iocsq_irp *i = iocsq_known(context->Irp, "IoCsqRemoveIrp of a context with");
    iocsq_log(i, "IoCsqRemoveIrp(irp %u)", i->index);
    if (context->Csq != csq || i->context != context) {
        iocsq_disagree(i, "IoCsqRemoveIrp of a context that irp %u was not inserted with",
                       i->index);
    }
    return i;
}

PIRP NTAPI IoCsqRemoveIrp(PIO_CSQ Csq, PIO_CSQ_IRP_CONTEXT Context) {
    struct iocsq_queue *q = iocsq_queue_of(Csq);
    iocsq_touch(&q->calls, IOCSQ_LOOKS);
    q->calls++;
    struct held held = enter(q);
    struct iocsq_irp *i = irp_of_context(Csq, Context);
    bool removed = i && take(q, i);
    if (removed) {
        IOCSQ_COUNT(Removed);
        iocsq_cover_removal(q);
        remove_by_driver(q, i);
    }
    leave(q, held, true);
    iocsq_long_point(8);
    return removed ? &i->irp : NULL;
}

/* ---- Completion, of an IRP that stays in a queue ---- */
void iocsq_complete_held(struct iocsq_irp *i, NTSTATUS status) {
    iocsq_touch(i, IOCSQ_CHANGES);
    if (i->call_of) {
        iocsq_touch(&i->call_of->calls, IOCSQ_LOOKS);
        i->call_of->calls--;
        i->call_of = NULL;
    }
    switch (iocsq_reference_complete(i, status)) {
    case CSQ_USE_AGREES: return;
    case CSQ_USE_LISTED:
        iocsq_disagree(i, "irp %u is completed while it is in the queue", i->index);
    case CSQ_USE_GOT_CANCELLED:
        iocsq_disagree(i, "irp %u was got cancelled, and is completed with %08X", i->index,
                       (unsigned)status);
    /* check_completion has reported STATUS_PENDING: here it is one that another thread wrote since,
     * running freely. */
    case CSQ_USE_NOT_FINAL: iocsq_disagree(i, "irp %u is completed with STATUS_PENDING", i->index);
    default:
        iocsq_disagree(i, "irp %u is completed while another thread completes or inserts it",
                       i->index);
    }
}
