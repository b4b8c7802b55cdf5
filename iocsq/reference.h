/* The queue of csq.h that runs beside the list of one IO_CSQ, and decides who gets which IRP. It
 * has locks of its own, so that a driver whose lock is wrong doesn't break what csq.h asks of its
 * caller. */
#ifndef IOCSQ_REFERENCE_H
#define IOCSQ_REFERENCE_H
#include "csq.h"
#include "internal.h"


/* The most queues, and of each the IRPs, which have slots, and the file objects' numbers, with that
 * of none: fewer than csq.h allows, since a queue is looked through again and again. */
enum { IOCSQ_QUEUES = 512, IOCSQ_SLOTS = 1024, IOCSQ_NUMBERS = IOCSQ_FILES + 1, IOCSQ_PASSES = 16 };

/* A pass is used by one thread at a time. */
struct iocsq_lent_pass {
    struct iocsq_mutex mutex; /* held for one call of csq.h alone, and taken after the queue's */
    struct csq_pass pass;
};

struct iocsq_reference {
    uint32_t index; /* below IOCSQ_QUEUES */
    struct iocsq_mutex mutex; /* the lock of the queue, and of the fields below */
    struct csq_queue queue;
    struct iocsq_lent_pass passes[IOCSQ_PASSES];
    /* An IRP has a slot while it stays in the queue: from its insert until its completion, or until
     * the driver inserts it elsewhere. Each stay is one life of the slot, so a cancel that comes
     * late names an old life. */
    struct iocsq_irp *by_slot[IOCSQ_SLOTS];
    uint32_t used_slots; /* none above was ever used */
    uint32_t files[IOCSQ_SLOTS]; /* for which the IRP was inserted */
    uint32_t lives[IOCSQ_SLOTS];
    uint32_t free_slots[IOCSQ_SLOTS];
    uint32_t free_count;
};

/* A cancel routine that was taken: the pass owes the IRP. */
struct iocsq_claim {
    struct iocsq_reference *reference;
    struct csq_irp irp;
    uint32_t pass;
};

void iocsq_reference_begin(struct iocsq_reference *r, uint32_t index);
void iocsq_reference_end(struct iocsq_reference *r); /* once nothing stays in it */
bool iocsq_reference_is_idle(struct iocsq_reference *r); /* nothing stays in it */

/* The list: slots, or CSQ_ANY for none. */
uint32_t iocsq_reference_next(struct iocsq_reference *r, uint32_t after, uint32_t file);
/* The verdict of a peek's answer, of enum csq_peek_verdict; writes which match is skipped, if one
 * is. */
uint32_t iocsq_reference_judge(struct iocsq_reference *r, uint32_t after, uint32_t file,
                               uint32_t answer, uint32_t *skipped);
uint32_t iocsq_reference_len(struct iocsq_reference *r);
/* An IRP that is listed for a file object's number, though that was cleaned up: not one that came
 * after the cleanup began, or that is cancelled (csq_judge_cleanup). Null: none. */
struct iocsq_irp *iocsq_reference_left(struct iocsq_reference *r, uint32_t file);
/* In which it stays; null: none. */
struct iocsq_reference *iocsq_reference_of(const struct iocsq_irp *i);
/* CSQ_ANY: it isn't listed there. */
uint32_t iocsq_slot_in(const struct iocsq_reference *r, const struct iocsq_irp *i);

/* Gives the IRP a slot, so that cancellers find it there. */
void iocsq_reference_join(struct iocsq_reference *r, struct iocsq_irp *i);
/* Inserts it for a file object's number. Whether it is pending; if not it was cancelled before, and
 * is held. */
bool iocsq_reference_insert(struct iocsq_reference *r, struct iocsq_irp *i, uint32_t file,
                            bool first);
/* Whether the driver may insert an IRP again, before it does: one that stays in a queue has to be
 * what a removal got. The verdict, of enum csq_use_verdict; nothing is changed. */
uint32_t iocsq_reference_judge_again(struct iocsq_irp *i);
/* Whether such an insert is a put-back: into the queue in which the IRP stays, and for the same
 * file object. Its stay goes on then. Otherwise it ends, and another begins. */
bool iocsq_reference_goes_on(const struct iocsq_reference *r, const struct iocsq_irp *i,
                             uint32_t file);
/* Puts it back, through the pass that holds it, whichever thread that was. CSQ_OK: it is pending;
 * CSQ_CANCELLED: it was cancelled before, and is held; CSQ_NOT_HELD: another thread completed or
 * inserted it meanwhile. */
uint32_t iocsq_reference_put_back(struct iocsq_reference *r, struct iocsq_irp *i, bool first);
/* Ends the stay of an IRP that a removal got, and that is inserted elsewhere. Whether it was still
 * so. */
bool iocsq_reference_leave(struct iocsq_irp *i);
/* Removes it, so that it is held. The verdict, of enum csq_remove_verdict. */
uint32_t iocsq_reference_remove(struct iocsq_reference *r, struct iocsq_irp *i);
/* Sets the flag of an IRP that stays in a queue, and takes its routine. Whether the routine was
 * there. */
bool iocsq_reference_mark(struct iocsq_irp *i, struct iocsq_claim *claim);
/* Runs the cancel routine that was taken. The IRP is held then. */
void iocsq_reference_run_routine(const struct iocsq_claim *claim, struct iocsq_irp *i);
/* Ends the stay of an IRP that is completed with this status. The verdict, of enum
 * csq_use_verdict. */
uint32_t iocsq_reference_complete(struct iocsq_irp *i, NTSTATUS status);

uint32_t iocsq_pass_of_thread(void); /* the pass that this thread asks for first */
#endif
