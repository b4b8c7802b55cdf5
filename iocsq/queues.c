/* The queues that there are: from IoCsqInitialize until their memory is freed. */
#include "queues.h"

#include <stdlib.h>

static struct iocsq_queue *queues[IOCSQ_QUEUES]; /* none is freed before the end, since a canceller
                                                  * may look at it */
static uint32_t queue_count;
static struct iocsq_mutex queues_mutex = IOCSQ_MUTEX; /* of the two, and of each queue's
                                                                  * csq */
static IOCSQ_POLICY first_policy; /* of queues that are initialized from now on */

struct iocsq_queue *iocsq_queue_at(uint32_t index) {
    iocsq_touch(&queue_count, IOCSQ_LOOKS);
    iocsq_lock(&queues_mutex);
    struct iocsq_queue *q = queues[index];
    iocsq_unlock(&queues_mutex);
    return q;
}

static struct iocsq_queue *find(const IO_CSQ *csq) {
    for (uint32_t at = 0; at < queue_count; at++) {
        if (queues[at]->csq == csq) {
            return queues[at];
        }
    }
    return NULL;
}

struct iocsq_queue *iocsq_queue_of(PIO_CSQ csq) {
    iocsq_touch(&queue_count, IOCSQ_LOOKS);
    iocsq_lock(&queues_mutex);
    struct iocsq_queue *found = find(csq);
    iocsq_unlock(&queues_mutex);
    if (!found || csq->ReservePointer != found) {
        iocsq_disagree(NULL, "a call of an IO_CSQ that was not initialized, or was overwritten");
    }
    return found;
}

struct iocsq_irp *iocsq_known(PIRP irp, const char *who) {
    struct iocsq_irp *i = iocsq_irp_at(irp);
    if (!i) {
        iocsq_disagree(NULL, "%s %p, which is no IRP", who, (void *)irp);
    }
    return i;
}

PFILE_OBJECT iocsq_irp_file(struct iocsq_irp *i) {
    bool has_location = i->irp.CurrentLocation <= i->irp.StackCount;
    return has_location ? IoGetCurrentIrpStackLocation(&i->irp)->FileObject : NULL;
}

/* ---- The end of a queue's memory ---- */
/* `its`: what the queue is to what ends. */
static void forget(struct iocsq_queue *q, const char *what, const char *its) {
    iocsq_touch(&queue_count, IOCSQ_CHANGES);
    iocsq_touch(&q->calls, IOCSQ_CHANGES);
    uint32_t listed = iocsq_reference_next(&q->reference, CSQ_ANY, CSQ_ANY);
    if (listed != CSQ_ANY) {
        const struct iocsq_irp *i = q->reference.by_slot[listed];
        iocsq_disagree(i, "%s, and irp %u is in %s", what, i->index, its);
    }
    if (q->calls > 0) {
        iocsq_disagree(NULL, "%s, and a call or a cancel routine of %s has not ended", what, its);
    }
    q->csq = NULL;
}

static void forget_in(const void *from, size_t size, const char *what, const char *its) {
    iocsq_touch(&queue_count, IOCSQ_LOOKS);
    iocsq_lock(&queues_mutex);
    for (uint32_t at = 0; at < queue_count; at++) {
        if (queues[at]->csq && (uintptr_t)queues[at]->csq - (uintptr_t)from < size) {
            forget(queues[at], what, its);
        }
    }
    iocsq_unlock(&queues_mutex);
}

void iocsq_end_queues_in(const void *from, size_t size, const char *what) {
    forget_in(from, size, what, "a queue in it");
}

void iocsq_end_queues(void) {
    for (uint32_t at = 0; at < queue_count; at++) {
        iocsq_reference_end(&queues[at]->reference);
        free(queues[at]);
    }
    queue_count = 0;
}

struct iocsq_irp *iocsq_left_in_queues(uint32_t file) {
    struct iocsq_irp *left = NULL;
    iocsq_touch(&queue_count, IOCSQ_LOOKS);
    iocsq_lock(&queues_mutex);
    for (uint32_t at = 0; at < queue_count && !left; at++) {
        left = iocsq_reference_left(&queues[at]->reference, file);
    }
    iocsq_unlock(&queues_mutex);
    return left;
}

/* ---- Beginning ---- */
static struct iocsq_queue *new_queue(void) {
    if (queue_count == IOCSQ_QUEUES) {
        iocsq_disagree(NULL,
                       "IoCsqInitialize beside %u queues, and %u file objects are open: memory "
                       "with queues in it is never freed, as where a reference to it is never "
                       "dropped (or else the driver has more queues than iocsq has room for)",
                       queue_count, iocsq_open_files());
    }
    struct iocsq_queue *q = calloc(1, sizeof *q);
    if (!q) {
        iocsq_fail("no memory for a queue");
    }
    iocsq_reference_begin(&q->reference, queue_count);
    queues[queue_count++] = q;
    return q;
}

/* One whose memory was freed, and in which nothing stays any more. */
static struct iocsq_queue *find_forgotten(void) {
    for (uint32_t at = 0; at < queue_count; at++) {
        if (!queues[at]->csq && iocsq_reference_is_idle(&queues[at]->reference)) {
            return queues[at];
        }
    }
    return NULL;
}

/* It may have been initialized before, which does no harm if nothing is in it: then only its
 * callbacks of now count. */
static void end_before(PIO_CSQ csq, const char *what) {
    iocsq_lock(&queues_mutex);
    const struct iocsq_queue *before = find(csq);
    if (before && !before->used) {
        iocsq_take_back_kind(before->kind);
    }
    iocsq_unlock(&queues_mutex);
    forget_in(csq, sizeof *csq, what, "its queue");
}

static void begin(PIO_CSQ csq) {
    iocsq_expect_nonpaged(csq, "an IO_CSQ");
    end_before(csq, csq->Type == IO_TYPE_CSQ_EX
                        ? "IoCsqInitializeEx of an IO_CSQ that was initialized before"
                        : "IoCsqInitialize of an IO_CSQ that was initialized before");
    iocsq_touch(&queue_count, IOCSQ_CHANGES);
    iocsq_lock(&queues_mutex);
    struct iocsq_queue *q = find_forgotten();
    if (!q) {
        q = new_queue();
    }
    q->csq = csq;
    q->policy = first_policy;
    q->kind = iocsq_kind_of(csq);
    iocsq_set_policy_of_kind(q->kind, &first_policy);
    q->used = false;
    q->inside = 0;
    q->lock = NULL;
    csq->ReservePointer = q;
    iocsq_unlock(&queues_mutex);
}

static NTSTATUS initialize(PIO_CSQ csq, IO_CSQ all) {
    if (!all.CsqInsertIrp || !all.CsqRemoveIrp || !all.CsqPeekNextIrp || !all.CsqAcquireLock ||
        !all.CsqReleaseLock || !all.CsqCompleteCanceledIrp) {
        iocsq_disagree(NULL, "a callback of IoCsqInitialize is null");
    }
    *csq = all;
    begin(csq);
    return STATUS_SUCCESS;
}

NTSTATUS NTAPI IoCsqInitialize(PIO_CSQ Csq, PIO_CSQ_INSERT_IRP CsqInsertIrp,
                               PIO_CSQ_REMOVE_IRP CsqRemoveIrp,
                               PIO_CSQ_PEEK_NEXT_IRP CsqPeekNextIrp,
                               PIO_CSQ_ACQUIRE_LOCK CsqAcquireLock,
                               PIO_CSQ_RELEASE_LOCK CsqReleaseLock,
                               PIO_CSQ_COMPLETE_CANCELED_IRP CsqCompleteCanceledIrp) {
    IO_CSQ all = { IO_TYPE_CSQ,    CsqInsertIrp,   CsqRemoveIrp,           CsqPeekNextIrp,
                   CsqAcquireLock, CsqReleaseLock, CsqCompleteCanceledIrp, NULL };
    return initialize(Csq, all);
}

NTSTATUS NTAPI IoCsqInitializeEx(PIO_CSQ Csq, PIO_CSQ_INSERT_IRP_EX CsqInsertIrp,
                                 PIO_CSQ_REMOVE_IRP CsqRemoveIrp,
                                 PIO_CSQ_PEEK_NEXT_IRP CsqPeekNextIrp,
                                 PIO_CSQ_ACQUIRE_LOCK CsqAcquireLock,
                                 PIO_CSQ_RELEASE_LOCK CsqReleaseLock,
                                 PIO_CSQ_COMPLETE_CANCELED_IRP CsqCompleteCanceledIrp) {
    void (*insert)(void) = (void (*)(void))CsqInsertIrp; /* as the WDK's struct has it: one field
                                                          * for both */
    IO_CSQ all = { IO_TYPE_CSQ_EX,         (PIO_CSQ_INSERT_IRP)insert,
                   CsqRemoveIrp,           CsqPeekNextIrp,
                   CsqAcquireLock,         CsqReleaseLock,
                   CsqCompleteCanceledIrp, NULL };
    return initialize(Csq, all);
}

VOID IocsqSetPolicy(PIO_CSQ Csq, const IOCSQ_POLICY *Policy) {
    struct iocsq_queue *q = Csq ? iocsq_queue_of(Csq) : NULL;
    *(q ? &q->policy : &first_policy) = *Policy;
    if (q) {
        iocsq_set_policy_of_kind(q->kind, Policy);
    }
}

BOOLEAN IocsqCovered(VOID) {
    iocsq_lock(&queues_mutex);
    bool covered = iocsq_is_covered();
    iocsq_unlock(&queues_mutex);
    return covered;
}

IOCSQ_POLICY iocsq_first_policy(void) {
    return first_policy;
}

IOCSQ_POLICY iocsq_policy_of(const struct iocsq_irp *i) {
    const struct iocsq_reference *r = iocsq_reference_of(i);
    return r ? iocsq_queue_at(r->index)->policy : first_policy;
}

/* ---- List entries of IRPs that are in a queue: under that queue's lock alone ---- */
static void check_touch(const LIST_ENTRY *entry, const char *call, const char *how) {
    struct iocsq_irp *i = iocsq_irp_of_entry(entry);
    if (i) {
        iocsq_touch(i, IOCSQ_LOOKS);
    }
    const struct iocsq_reference *r = i && i->place == IOCSQ_LISTED ? iocsq_reference_of(i) : NULL;
    if (r && !iocsq_has_lock(iocsq_queue_at(r->index)->lock)) {
        iocsq_disagree(i, "%s %s irp %u, which is in the queue, without the queue's lock", call,
                       how, i->index);
    }
}

/* An IRP that had a cancel routine of the driver's own was completed, and never unlinked. */
static void check_dangling(const LIST_ENTRY *entry, const char *call, const char *how) {
    struct iocsq_irp *i = iocsq_irp_of_entry(entry);
    if (i && i->place == IOCSQ_DONE && i->hand.armed && i->hand.linked && !i->hand.thief) {
        iocsq_disagree(i, "%s %s irp %u, which was completed and is still in the driver's list",
                       call, how, i->index);
    } /* of a thief the report follows, with the second completion */
}

VOID IocsqTouch(const LIST_ENTRY *Entry, const LIST_ENTRY *Before, const LIST_ENTRY *After,
                const char *Call) {
    struct iocsq_irp *i = iocsq_irp_of_entry(Entry);
    if (i && iocsq_is_by_hand() && iocsq_lock_count() == 0) {
        iocsq_point(); /* no lock keeps others out */
    }
    check_touch(Entry, Call, "of");
    check_touch(Before, Call, "beside");
    check_touch(After, Call, "beside");
    check_dangling(Entry, Call, "of");
    check_dangling(Before, Call, "beside");
    check_dangling(After, Call, "beside");
    if (i) {
        iocsq_hand_link(i, Call[0] == 'I'); /* InsertTailList, InsertHeadList */
    }
}
