/* What is known of an IO_CSQ, and searches through its list. */
#ifndef IOCSQ_QUEUES_H
#define IOCSQ_QUEUES_H
#include "reference.h"

/* ---- coverage.c: the queues with the same callbacks are of one kind ---- */
enum iocsq_callback { IOCSQ_INSERT, IOCSQ_REMOVE, IOCSQ_PEEK, IOCSQ_ACQUIRE, IOCSQ_RELEASE,
                      IOCSQ_COMPLETE, IOCSQ_CALLBACKS };
struct iocsq_queue;
struct iocsq_kind;
struct iocsq_kind *iocsq_kind_of(const IO_CSQ *csq); /* with the next: the queues' mutex is held */
void iocsq_take_back_kind(struct iocsq_kind *k); /* one of its queues was begun again, unused */
void iocsq_set_policy_of_kind(struct iocsq_kind *k, const IOCSQ_POLICY *policy);
void iocsq_cover_call(struct iocsq_queue *q, enum iocsq_callback which);
void iocsq_note_null_context(struct iocsq_queue *q); /* the driver peeks with one */
bool iocsq_has_null_contexts(const struct iocsq_queue *q);
void iocsq_cover_insert(struct iocsq_queue *q);    /* that the driver accepted */
void iocsq_cover_removal(struct iocsq_queue *q);   /* whose IRP the driver got */
void iocsq_cover_cancelled(struct iocsq_queue *q); /* for which CsqCompleteCanceledIrp was called */
bool iocsq_is_covered(void); /* all has happened that IocsqCoverage asks for: the queues' mutex is
                              * held */

/* ---- queues.c ---- */
struct iocsq_queue {
    PIO_CSQ csq; /* null: its memory was freed */
    IOCSQ_POLICY policy;
    struct iocsq_kind *kind;
    _Atomic bool used; /* one of its callbacks ran */
    struct iocsq_reference reference;
    _Atomic uint32_t calls;  /* and cancel routines of it, under way */
    _Atomic uint32_t inside; /* the thread that has the driver's lock, through CsqAcquireLock */
    _Atomic(const void *) lock;
};
struct iocsq_queue *iocsq_queue_of(PIO_CSQ csq);
struct iocsq_queue *iocsq_queue_at(uint32_t index);
struct iocsq_irp *iocsq_known(PIRP irp, const char *who); /* ends the program where it is no IRP */
/* The policy of the queue in which it stays, or that of all queues. */
IOCSQ_POLICY iocsq_policy_of(const struct iocsq_irp *i);
IOCSQ_POLICY iocsq_first_policy(void); /* that of all queues */
PFILE_OBJECT iocsq_irp_file(struct iocsq_irp *i); /* null: it has none */

/* ---- queue.c: the driver's lock is held ---- */
/* It is as it went into the queue. */
void iocsq_check_tail(const struct iocsq_irp *i, const char *when);

/* ---- search.c: the driver's lock is held ---- */
struct iocsq_search {
    struct iocsq_queue *q;
    PVOID context;
    const char *when;
    bool audits; /* what a callback did before; else the peek itself is asked for by the driver */
    bool ahead;  /* before the driver's own peeks, with their context */
    struct iocsq_irp *before;  /* the last answer */
    bool seen[IOCSQ_SLOTS];  /* the slots of all answers */
};
/* The driver's next answer, which agrees with the reference. Null: none. */
struct iocsq_irp *iocsq_peek(struct iocsq_search *s);
/* Now and then: all of the driver's answers to peeks with this search's context, without their
 * effect on the search. Never if the policy says that peeks have effects on the driver. */
void iocsq_look_ahead(const struct iocsq_search *of);
/* Compares the driver's whole list, as peeks give it, with the reference's. */
void iocsq_audit(struct iocsq_queue *q, const char *when);

#endif
