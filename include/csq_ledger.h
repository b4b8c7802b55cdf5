/*
 * csq_ledger.h: a queue with the bookkeeping of its requests: which request is under way, for which
 * file object, in which stage it is, and when it is due. It is over csq.h, and csq_requests.h is
 * made of it. Its calls take no lock, wait for nothing and start nothing: the caller has one lock
 * for each ledger, and holds it round each call.
 *
 * A request is under way from its csq_ledger_begin to its end. Until then it is in one stage: it is
 * listed, or taken by a worker, or ending, which is between the two halves of an end without a
 * worker. Its name (struct csq_irp) belongs to it alone.
 *
 *     begin -> listed -> take -> taken -> finish
 *                 |  <- put_back -
 *                 +-> cancel, drain_next, expire -> ending -> end
 *
 * - As many requests of a file object are under way, and as many of all, as are in these stages.
 * - What is ending is ended by csq_ledger_end alone: every other call refuses its name.
 * - The call that ends the last request under way of a file object, or of all, says so.
 * - csq_ledger_new and csq_ledger_new_with_file_limits take memory. No other call does.
 *
 * A code is the first cause that the call's comment names. Each call but the two that make a ledger
 * returns CSQ_EMPTY_HANDLE before these if the handle is empty. A refusal, which is any code but
 * CSQ_OK, changes nothing and writes nothing, unless the call says so.
 *
 * What the caller must uphold is what csq.h asks for: a handle is in one call at a time, pointers
 * are valid, none is null unless the call allows it, and those of one call don't overlap.
 * Since: 1.1.
 */
#ifndef CSQ_LEDGER_H
#define CSQ_LEDGER_H

#include "csq.h"

#ifdef __cplusplus
extern "C" {
#endif

/* The time of a request that is never due. */
#define CSQ_NEVER UINT64_MAX

/* Why a request ends without a worker, or why nobody waits for a worker that has taken it. */
enum csq_why {
    CSQ_WHY_NONE = 0,
    CSQ_WHY_CANCEL = 1,  /* a cancel by its name */
    CSQ_WHY_DRAIN = 2,   /* a drain of its file object, or of all */
    CSQ_WHY_CLEANUP = 3, /* the same, whose file object was closed for good */
    CSQ_WHY_FREE = 4,    /* its queue is freed */
    CSQ_WHY_DUE = 5      /* its time was over */
};

/* The stage of a request. */
enum csq_stage {
    CSQ_STAGE_NONE = 0, /* it isn't under way */
    CSQ_STAGE_LISTED = 1,
    CSQ_STAGE_TAKEN = 2,
    CSQ_STAGE_ENDING = 3
};

/* A ledger. It begins as { NULL }, csq_ledger_new fills it, and csq_ledger_free empties it. */
struct csq_ledger {
    void *at;
};

/* What is known of a request by its name. All is 0 of a name that isn't under way. */
struct csq_look {
    uint32_t stage; /* of enum csq_stage */
    uint32_t file;  /* its file object */
    uint32_t why;   /* of enum csq_why: why it is ending; of one that is taken, what named it
                     * first */
};

/* The end of a request: its file object, and whether it was the last one under way of it, and of
 * all. */
struct csq_ended {
    uint32_t file;
    uint32_t file_is_quiet;
    uint32_t all_are_quiet;
};

/* ---- A ledger's beginning and end ---- */

/* Makes a ledger over a new queue of this size, whose number of passes isn't looked at.
 * CSQ_NOT_EMPTY; CSQ_BAD_SIZE; CSQ_NO_MEMORY. */
CSQ_NODISCARD uint32_t csq_ledger_new(struct csq_ledger *ledger, const struct csq_size *size);

/* csq_ledger_new, with a limit for each file object, as csq_new_with_file_limits takes them. The
 * same codes. */
CSQ_NODISCARD uint32_t csq_ledger_new_with_file_limits(struct csq_ledger *ledger,
                                                       const struct csq_size *size,
                                                       const uint32_t *limits, size_t count);

/* Frees it. CSQ_HOLDING: requests are under way, and nothing is freed. */
CSQ_NODISCARD uint32_t csq_ledger_free(struct csq_ledger *ledger);

/* Refuses each further begin as CSQ_CLOSED. Closing it again is no fault. */
uint32_t csq_ledger_close(struct csq_ledger *ledger);

/* Closes a file object for good: no begin and no put-back for it is accepted any more. Closing it
 * again is no fault. CSQ_UNKNOWN_FILE. */
CSQ_NODISCARD uint32_t csq_ledger_close_file(struct csq_ledger *ledger, uint32_t file);

/* ---- A request's way ---- */

/* Lists a new request under the number that has been free longest, for a file object, at the list's
 * end, or at its front if `front` isn't 0, due at `due` or never (CSQ_NEVER), and stores its name.
 * CSQ_UNKNOWN_FILE; CSQ_CLOSED; CSQ_FILE_CLOSED; CSQ_LIVES_SPENT (each number is past its last
 * life); CSQ_FULL (each other number is under way); CSQ_FILE_FULL; CSQ_FULL (as many are listed as
 * the limit allows). */
CSQ_NODISCARD uint32_t csq_ledger_begin(struct csq_ledger *ledger, uint32_t file, uint32_t front,
                                        uint64_t due, struct csq_irp *name);

/* Takes the first that is listed for a file object, or for any with CSQ_ANY, and stores its name
 * and its file object. CSQ_UNKNOWN_FILE; CSQ_NONE (none is listed). */
CSQ_NODISCARD uint32_t csq_ledger_take(struct csq_ledger *ledger, uint32_t file,
                                       struct csq_irp *name, uint32_t *of_file);

/* Lists a request again that is taken; its time stays. CSQ_UNKNOWN_IRP; CSQ_NOT_HELD (it isn't
 * taken); CSQ_NOT_REMOVED (an earlier put-back of it returned CSQ_CANCELLED); CSQ_FILE_CLOSED;
 * CSQ_FILE_FULL; CSQ_FULL; CSQ_CANCELLED (a cancel, or its time, has named it: it stays taken, and
 * is finished with STATUS_CANCELLED alone). */
CSQ_NODISCARD uint32_t csq_ledger_put_back(struct csq_ledger *ledger, struct csq_irp name,
                                           uint32_t front);

/* Completes a request that is taken, with this status, and ends it. CSQ_UNKNOWN_IRP; CSQ_NOT_HELD
 * (it isn't taken); CSQ_NOT_REMOVED (its put-back returned CSQ_CANCELLED, and the status is another
 * than STATUS_CANCELLED); CSQ_NOT_FINAL (the status is STATUS_PENDING). */
CSQ_NODISCARD uint32_t csq_ledger_finish(struct csq_ledger *ledger, struct csq_irp name,
                                         uint32_t status, struct csq_ended *ended);

/* ---- Ends without a worker ---- */

/* Cancels a request by its name. CSQ_BAD_SIZE (`why` is CSQ_WHY_NONE, or none of enum csq_why);
 * CSQ_UNKNOWN_IRP; CSQ_STALE (it isn't under way); CSQ_NONE (it is taken, and is named by this
 * cancel unless it was named before; or it is ending). CSQ_OK: it was listed, and is ending because
 * of `why`. */
CSQ_NODISCARD uint32_t csq_ledger_cancel(struct csq_ledger *ledger, struct csq_irp name,
                                         uint32_t why);

/* Takes out the first that is listed for a file object, or for any with CSQ_ANY, and stores its
 * name and its file object: it is ending because of `why`. CSQ_BAD_SIZE (as of csq_ledger_cancel);
 * CSQ_UNKNOWN_FILE; CSQ_NONE (none is listed). */
CSQ_NODISCARD uint32_t csq_ledger_drain_next(struct csq_ledger *ledger, uint32_t file, uint32_t why,
                                             struct csq_irp *name, uint32_t *of_file);

/* Names one request that is due at `now` or before, the one that is due first, or one of several
 * that are: one that is listed is ending then (CSQ_WHY_DUE), one that is taken is named unless it
 * was named before. It isn't due any more. Stores its name, and its stage then. CSQ_NONE (none is
 * due: what is ending isn't). */
CSQ_NODISCARD uint32_t csq_ledger_expire(struct csq_ledger *ledger, uint64_t now,
                                         struct csq_irp *name, uint32_t *stage);

/* Completes a request that is ending with STATUS_CANCELLED, and ends it: the second half.
 * CSQ_UNKNOWN_IRP; CSQ_NOT_HELD (it isn't ending). */
CSQ_NODISCARD uint32_t csq_ledger_end(struct csq_ledger *ledger, struct csq_irp name,
                                      struct csq_ended *ended);

/* ---- Looks ---- */

/* Stores when the next one is due. CSQ_NONE (none is). */
uint32_t csq_ledger_next_due(const struct csq_ledger *ledger, uint64_t *due);

/* Stores what is known of a request. CSQ_UNKNOWN_IRP. */
uint32_t csq_ledger_look(const struct csq_ledger *ledger, struct csq_irp name,
                         struct csq_look *look);

/* Stores how many are listed for a file object, or for any with CSQ_ANY, and how many are under
 * way, those among them. CSQ_UNKNOWN_FILE. */
uint32_t csq_ledger_len(const struct csq_ledger *ledger, uint32_t file, uint32_t *listed,
                        uint32_t *under_way);

#ifdef __cplusplus
}
#endif

#endif
