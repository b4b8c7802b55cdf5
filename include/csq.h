/*
 * csq.h: the cancel-safe IRP queue of Microsoft's WDK (IoCsqInsertIrpEx, IoCsqRemoveNextIrp,
 * IoCsqRemoveIrp, IoSetCancelRoutine, IoCancelIrp, IRP_MJ_CLEANUP) for programs in C and C++ that
 * bring a lock of their own. The library runs on 64-bit Linux (ELF), on a processor of x86-64-v2
 * (SSE4.1) or ARMv8-A or later, and on 64-bit Windows on one of x86-64-v2. This header is C99, and
 * C++98 with its <stdint.h>; C89 isn't supported.
 *
 *     the WDK                                  here
 *     IoCsqInitializeEx                        csq_new, csq_take_pass
 *     IoCsqInsertIrpEx                         csq_insert
 *     IoCsqRemoveNextIrp                       csq_remove_next
 *     IoCsqRemoveIrp, IO_CSQ_IRP_CONTEXT       csq_remove, struct csq_irp
 *     IoCsqInsertIrpEx of what was removed     csq_put_back
 *     IoCancelIrp                              csq_cancel; its halves are csq_mark_cancel and
 *                                              csq_cancel_owed
 *     CsqPeekNextIrp                           csq_peek_next
 *     CsqCompleteCanceledIrp                   csq_complete_cancelled; struct csq_callback is
 *                                              called before it, and struct csq_events before and
 *                                              after it
 *     IoCompleteRequest                        csq_complete
 *     IRP_MJ_CLEANUP                           csq_cleanup; csq_close_file, csq_drain
 *     IoReuseIrp                               csq_reuse
 *     Irp->Cancel, Irp->IoStatus.Status        csq_read_cancel, csq_read_status
 *     CsqAcquireLock, CsqReleaseLock           the caller's lock (struct csq_lock)
 *
 * The words:
 *
 * - A queue is over the IRPs 0 to irps - 1 and the file objects 0 to files - 1. An IRP is home
 *   until an insert accepts it. Then it is listed, until a removal or a cancel takes it out of the
 *   list, and the pass that took it out holds it until the completion; one that its insert found
 *   cancelled (CSQ_CANCELLED) is held by the insert's pass at once. What a pass got by a removal it
 *   may put back (csq_put_back): the IRP is listed again, and is removed or cancelled again. An IRP
 *   that an insert accepted is completed at most once, and once no pass is out it is listed or was
 *   completed.
 * - A completed IRP may be used again (csq_reuse): its next life begins, of which all this holds
 *   anew. A caller names an IRP in one of its lives (struct csq_irp), so that what comes late for
 *   an old life is refused and takes nothing of a newer one.
 * - A pass is what calls are made through: one for each thread that inserts, removes, cancels or
 *   completes. It knows which IRPs it holds (got by a removal, or got cancelled), and which ones it
 *   owes: their cancel routine was taken through this pass and has yet to run.
 *
 * The lock: "Lock: held" says that the caller has the queue's lock round the call, which is any
 * lock of the caller's, one for each queue. "Lock: not needed" says that the call may come at any
 * time, also while another thread has the lock. No call here takes a lock or waits (but for what
 * malloc, realloc and free do), starts a thread or ends the program. (csq_cancel, csq_cleanup and
 * csq_drain, at the end, and csq_cancel_with and so on, take the caller's lock through the caller's
 * functions.)
 *
 * Allocation: csq_new, csq_new_with_file_limits and csq_take_pass of a new pass take memory. No
 * other call does.
 *
 * Memory order: what a thread wrote before csq_insert or csq_put_back is seen by the thread that
 * removes the IRP or runs its cancel routine, since both have the lock; and by the one that takes
 * its cancel routine (csq_mark_cancel with *found 1, and the callback of csq_cancel), without the
 * lock. What a thread wrote before csq_complete, csq_complete_cancelled or csq_cancel_owed is seen
 * by any thread that learns of that completion from csq_read_status or csq_reuse. For the last two
 * the library's steps on its words are atomic and sequentially consistent. The thread sanitizer
 * doesn't see them in a library that was compiled without it, so this header reports that order to
 * it in a program that is compiled with it (CSQ_NO_TSAN, defined before, leaves that out).
 *
 * What a call returns is a code of the one table below. If several would fit it is the first one
 * tested: whether handles are filled or empty, in the order of the parameters; whether the pass is
 * this queue's; whether the queue is closed; then the causes in the order in which the call's
 * comment names them. A closed queue has no pass, so a call that takes a queue and a filled pass
 * returns CSQ_OTHER_QUEUE of it. A refusal, which is any code but CSQ_OK and the CSQ_CANCELLED of
 * csq_insert and csq_put_back, changes nothing and writes nothing, but for the life that
 * csq_read_status stores. (csq_drain and csq_cleanup are made of several calls: what they did
 * before a refusal stays done.) CSQ_EMPTY_HANDLE of a handle that is filled says that two calls had
 * it at once: the lock is missing somewhere. (csq_take_pass also returns it for a queue that has no
 * number yet.)
 *
 * What the caller must uphold, which nothing checks:
 *
 * - A handle begins as CSQ_EMPTY (or with all bytes 0), and these calls alone fill and empty it. It
 *   is empty if its field `at` is NULL. It is not copied, but may be moved while no call uses it (a
 *   callback is inside of its call); what it points to is not read or written.
 * - A handle is in one call at a time. For a queue that is the lock: of csq_cancel, csq_cleanup and
 *   csq_drain the queue is in a call only while they have the lock, so other threads' calls may
 *   come in between. A pass is used by one thread at a time, from the beginning of a call to its
 *   end, and goes from one to another by an act that synchronises (a lock, the start or the join of
 *   a thread, a sequentially consistent atomic).
 * - Pointers are valid for what is read and written through them, none is null, and those of one
 *   call don't overlap.
 * - malloc, realloc and free are of one allocator, and may be called by several threads at once.
 * - No call is made in a signal handler, in the forked child of a process with threads, or with
 *   less than 8 KB of the stack left. (Measured with glibc: csq_new takes 3.1 KB, each other call
 *   less than 1.3 KB. If the dynamic linker binds malloc or free at its first call, that call takes
 *   up to 3.1 KB more.)
 */
#ifndef CSQ_H
#define CSQ_H

#include <stddef.h>
#include <stdint.h>

/* The version of this interface: as text, and as the number that csq_version returns of the
 * library. What came later than 1.0 says so: "Since: 1.1". */
#define CSQ_VERSION "1.1.0"
#define CSQ_VERSION_NUMBER UINT32_C(10100)

/* A call that is written in this header. An installed library has each of these as a symbol too,
 * for those who bind by name. Since: 1.1. */
#ifndef CSQ_INLINE
#define CSQ_INLINE static inline
#endif

/* An answer that has to be looked at: otherwise an IRP may be held or owed by a pass whose program
 * doesn't know. */
#if (defined(__cplusplus) && __cplusplus >= 201703L) || \
    (defined(__STDC_VERSION__) && __STDC_VERSION__ >= 202311L)
#define CSQ_NODISCARD [[nodiscard]]
#elif defined(__GNUC__)
#define CSQ_NODISCARD __attribute__((warn_unused_result))
#else
#define CSQ_NODISCARD
#endif

#ifdef __cplusplus
extern "C" {
#endif

/* What a call returns. */
enum csq_code {
    CSQ_OK = 0,
    /* The IRP's number isn't below the queue's number of IRPs. */
    CSQ_UNKNOWN_IRP = 1,
    /* The file object's number isn't below the queue's number of file objects. */
    CSQ_UNKNOWN_FILE = 2,
    /* An insert accepted the IRP in its present life already. */
    CSQ_NOT_HOME = 3,
    /* The file object was closed (STATUS_FILE_CLOSED in a driver). */
    CSQ_FILE_CLOSED = 4,
    /* As many IRPs are listed for this file object as its own limit allows, which is tested before
     * the queue's. */
    CSQ_FILE_FULL = 6,
    /* As many IRPs are listed as the limit allows (STATUS_INSUFFICIENT_RESOURCES in a driver, as of
     * CSQ_FILE_FULL). */
    CSQ_FULL = 5,
    /* The insert, or the put-back, found the IRP cancelled: the pass holds it, and completes it as
     * cancelled. */
    CSQ_CANCELLED = 7,
    /* There is none: no IRP to remove, no status yet, no further listed IRP. */
    CSQ_NONE = 8,
    /* The IRP has left the life named, or isn't in it yet. */
    CSQ_STALE = 9,
    /* The IRP's present life isn't completed. */
    CSQ_NOT_COMPLETED = 10,
    /* The IRP's present life is the last that there can be. */
    CSQ_LIVES_SPENT = 11,
    /* The pass doesn't hold the IRP in the life named. */
    CSQ_NOT_HELD = 12,
    /* The pass doesn't owe the IRP in the life named. */
    CSQ_NOT_OWED = 13,
    /* The pass got the IRP cancelled: it completes it by csq_complete_cancelled alone, and can't
     * put it back. */
    CSQ_NOT_REMOVED = 14,
    /* STATUS_PENDING is no status to complete with. */
    CSQ_NOT_FINAL = 15,
    /* The pass holds or owes IRPs. */
    CSQ_HOLDING = 16,
    /* Passes are out: handed out, and not given back. */
    CSQ_PASSES_OUT = 17,
    /* All passes of the queue are out. */
    CSQ_NO_PASS = 18,
    /* A number is out of its range. */
    CSQ_BAD_SIZE = 19,
    /* Memory was refused. */
    CSQ_NO_MEMORY = 20,
    /* A handle that has to be filled is empty, or a queue has no number yet (csq_take_pass). */
    CSQ_EMPTY_HANDLE = 21,
    /* A handle that is to be filled isn't empty. */
    CSQ_NOT_EMPTY = 22,
    /* The IRP isn't in the queue's list. */
    CSQ_NOT_LISTED = 23,
    /* The queue is closed. */
    CSQ_CLOSED = 24,
    /* The queue isn't closed. */
    CSQ_NOT_CLOSED = 25,
    /* The pass is another queue's. */
    CSQ_OTHER_QUEUE = 26,
    /* Of csq_replay.h, since 1.1: there is no such pass. */
    CSQ_UNKNOWN_PASS = 27,
    /* The step is made under the lock, and another pass has it. */
    CSQ_LOCK_HELD = 28,
    /* The pass is inside of a call that has another next step, or no call begins with the step. */
    CSQ_NOT_NEXT = 29
};

/* Since: 1.1. What csq_judge_peek says of an answer, the first that holds: */
enum csq_peek_verdict {
    /* It is what csq_peek_next returns. */
    CSQ_PEEK_AGREES = 0,
    /* It is none, or a later match: another match comes first. */
    CSQ_PEEK_SKIPS = 1,
    /* It is a match, but none after the IRP from which the peek went on. */
    CSQ_PEEK_BACKWARDS = 2,
    /* It is listed, and no match. */
    CSQ_PEEK_NO_MATCH = 3,
    /* It isn't listed. */
    CSQ_PEEK_NOT_LISTED = 4
};

/* Since: 1.1. What csq_judge_remove says of a removal: */
enum csq_remove_verdict {
    /* The queue gives the IRP to the pass too. */
    CSQ_REMOVE_AGREES = 0,
    /* It is listed, by its number, and not to be had: a canceller has it, or it is in another
     * life. */
    CSQ_REMOVE_CLAIMED = 1,
    /* It isn't listed. */
    CSQ_REMOVE_NOT_LISTED = 2
};

/* Since: 1.1. What csq_judge_complete and csq_judge_insert say of an IRP, the first that holds: */
enum csq_use_verdict {
    /* The pass holds it, and may do so. */
    CSQ_USE_AGREES = 0,
    /* It is listed. */
    CSQ_USE_LISTED = 1,
    /* The pass doesn't hold it in the life named: it was completed before, another pass has it, it
     * was never inserted, or there is no such IRP. */
    CSQ_USE_NOT_HELD = 2,
    /* The pass got it cancelled: it is completed with STATUS_CANCELLED alone. */
    CSQ_USE_GOT_CANCELLED = 3,
    /* STATUS_PENDING is no status to complete with. */
    CSQ_USE_NOT_FINAL = 4
};

/* How a queue keeps its list: in one vector, which is used as a ring, or in chains (one over all
 * listed IRPs, one for each file object). The vector is the faster one if the next IRP is removed
 * whatever its file object. But a removal from its middle moves the IRPs on the shorter side, and a
 * look for a file object walks past those of others; the chains take as many steps however many are
 * listed. With CSQ_AUTO the library takes the vector for a queue of at most CSQ_AUTO_VECTOR_IRPS
 * IRPs, and the chains for a larger one. CSQ_AUTO is there since 1.1. */
enum { CSQ_VECTOR = 0, CSQ_CHAINS = 1, CSQ_AUTO = 2, CSQ_AUTO_VECTOR_IRPS = 64 };

/* The most IRPs, file objects and passes of a queue (1,024, 256 and 64 in version 1.0), and an
 * IRP's last life. */
enum {
    CSQ_MOST_IRPS = 65535,
    CSQ_MOST_FILES = 16384,
    CSQ_MOST_PASSES = 1024,
    CSQ_LAST_LIFE = 0x3FFFFFFF
};

/* In the place of a file object: of whatever file object. In the place of a listed IRP: from the
 * first on. */
#define CSQ_ANY UINT32_MAX

/* Statuses with the numbers that Windows gives them. */
#define CSQ_STATUS_SUCCESS UINT32_C(0x00000000)
#define CSQ_STATUS_PENDING UINT32_C(0x00000103)
#define CSQ_STATUS_INVALID_PARAMETER UINT32_C(0xC000000D)
#define CSQ_STATUS_INSUFFICIENT_RESOURCES UINT32_C(0xC000009A)
#define CSQ_STATUS_CANCELLED UINT32_C(0xC0000120)
#define CSQ_STATUS_FILE_CLOSED UINT32_C(0xC0000128)

/* The handles, and what an empty one begins as: struct csq_queue queue = CSQ_EMPTY; A queue's
 * number is the address of what it points to, and a pass has its queue's number: by these the
 * library knows a pass of another queue. */
struct csq_queue {
    void *at;
    uint64_t number;
};
struct csq_pass {
    void *at;
    uint64_t queue;
};
#define CSQ_EMPTY { 0, 0 }

/* An IRP in one of its lives. From an insert it is the insert context (IO_CSQ_IRP_CONTEXT). */
struct csq_irp {
    uint32_t irp;
    uint32_t life;
};

/* How large a queue is to be. */
struct csq_size {
    uint32_t irps;       /* 1 to CSQ_MOST_IRPS */
    uint32_t files;      /* 1 to CSQ_MOST_FILES */
    uint32_t limit;      /* how many IRPs may be listed at a time: 1 to irps */
    uint32_t passes;     /* 1 to CSQ_MOST_PASSES */
    uint32_t first_life; /* the life in which all IRPs begin: 0 to CSQ_LAST_LIFE */
    uint32_t list;       /* CSQ_VECTOR, CSQ_CHAINS or CSQ_AUTO */
};

/* What a closed queue reports of an IRP in its present life. */
struct csq_left {
    uint32_t life;
    uint32_t cancelled; /* 1 if its Cancel flag is set, else 0 */
    uint32_t completed; /* 1 if it was completed, else 0 */
    uint32_t status;    /* what it was completed with; 0 if it wasn't */
};

/* ---- A queue's beginning and end ---- */

/* What csq_new and csq_new_with_file_limits call, which then give the queue its number. For these
 * two, and for bindings to other languages, which do as they do: until then the queue hands out no
 * pass. */
CSQ_NODISCARD uint32_t csq_new_queue(struct csq_queue *queue, const struct csq_size *size);
CSQ_NODISCARD uint32_t csq_new_queue_with_file_limits(struct csq_queue *queue,
                                                      const struct csq_size *size,
                                                      const uint32_t *file_limits, size_t count);

/* Makes a queue, as IoCsqInitializeEx does: no IRP is used, and each file object is open. With
 * CSQ_AUTO as its list the steps of a later call don't grow with the number of listed IRPs, but for
 * csq_remove_next past those that a canceller has, csq_peek_next from an IRP of another file
 * object, csq_drain and csq_cleanup, and the judges. The time of this call, of csq_free and of
 * csq_take_pass of a new pass grows with the number of the queue's IRPs, that of this call and
 * csq_free with that of file objects, and that of this call, csq_take_pass, csq_count_passes_out,
 * csq_close and csq_free with that of passes.
 * CSQ_NOT_EMPTY; CSQ_BAD_SIZE; CSQ_NO_MEMORY. Lock: not needed, for no other thread knows the queue
 * yet. */
CSQ_NODISCARD CSQ_INLINE uint32_t csq_new(struct csq_queue *queue, const struct csq_size *size) {
    uint32_t code = csq_new_queue(queue, size);
    if (code == CSQ_OK) {
        queue->number = (uint64_t)(uintptr_t)queue->at;
    }
    return code;
}

/* csq_new, with a limit for each file object: how many IRPs may be listed for it at a time, 1 to
 * irps. There are `count` limits, as many as file objects. CSQ_NOT_EMPTY; CSQ_BAD_SIZE;
 * CSQ_NO_MEMORY. Lock: not needed. */
CSQ_NODISCARD CSQ_INLINE uint32_t csq_new_with_file_limits(struct csq_queue *queue,
                                                           const struct csq_size *size,
                                                           const uint32_t *file_limits,
                                                           size_t count) {
    uint32_t code = csq_new_queue_with_file_limits(queue, size, file_limits, count);
    if (code == CSQ_OK) {
        queue->number = (uint64_t)(uintptr_t)queue->at;
    }
    return code;
}

/* Frees a queue, closed or not and whatever is left in it, once no pass is out. The handle is empty
 * then. Of an empty handle CSQ_OK, as free(NULL) has it.
 * CSQ_PASSES_OUT. Lock: held, or no other thread uses the queue any more. */
CSQ_NODISCARD uint32_t csq_free_queue(struct csq_queue *queue);

/* csq_free_queue, and CSQ_OK of NULL too. The handle is as CSQ_EMPTY then. */
CSQ_NODISCARD CSQ_INLINE uint32_t csq_free(struct csq_queue *queue) {
    uint32_t code = queue ? csq_free_queue(queue) : (uint32_t)CSQ_OK;
    if (queue && code == CSQ_OK) {
        queue->number = 0;
    }
    return code;
}

/* Stores in *out the number of passes that are out. CSQ_EMPTY_HANDLE; CSQ_CLOSED. Lock: held. */
uint32_t csq_count_passes_out(const struct csq_queue *queue, uint32_t *out);

/* Closes the queue, once no pass is out. The same handle is the closed queue then, which reports
 * what is left (csq_read_listed, csq_read_left) and is freed by csq_free; csq_take_pass and any
 * call of a queue alone that wants it open return CSQ_CLOSED.
 * CSQ_EMPTY_HANDLE; CSQ_CLOSED; CSQ_PASSES_OUT. Lock: held, or no other thread uses the queue any
 * more. */
CSQ_NODISCARD uint32_t csq_close(struct csq_queue *queue);

/* Reads the listed IRPs of a closed queue, in the list's order: the first for CSQ_ANY, or the one
 * after `after`.
 * CSQ_EMPTY_HANDLE; CSQ_NOT_CLOSED; CSQ_NOT_LISTED (`after` isn't listed); CSQ_NONE (none follows).
 * Lock: held, or no other thread uses the queue any more. */
uint32_t csq_read_listed(const struct csq_queue *queue, uint32_t after, uint32_t *irp);

/* Reads what is left of an IRP in a closed queue. CSQ_EMPTY_HANDLE; CSQ_NOT_CLOSED;
 * CSQ_UNKNOWN_IRP. Lock: as for csq_read_listed. */
uint32_t csq_read_left(const struct csq_queue *queue, uint32_t irp, struct csq_left *left);

/* Answers the library's version as CSQ_VERSION_NUMBER is that of this header: 10,000 times the
 * major version, 100 times the minor one, and the patch. Lock: not needed. */
uint32_t csq_version(void);

/* Returns what an installed library is: "csq 1.1.0 proved=yes kit=" and the line of the Rattle kit
 * that proved it, or "csq 1.1.0 proved=no". It is in the archive and in the shared library that
 * c/install and c/dist make (where `strings` shows that text too), and not in the archives of which
 * they make them. Lock: not needed. Since: 1.1. */
const char *csq_build(void);

/* ---- Passes ---- */

/* Hands out a pass, which holds and owes nothing: one that was given back, if there is one,
 * otherwise a new one. Only a new one takes memory. After CSQ_NO_MEMORY it can be asked for again.
 * CSQ_EMPTY_HANDLE (also of a queue whose number is 0, as csq_new_queue leaves it); CSQ_NOT_EMPTY;
 * CSQ_CLOSED; CSQ_NO_PASS; CSQ_NO_MEMORY. Lock: held. */
CSQ_NODISCARD uint32_t csq_take_pass(struct csq_queue *queue, struct csq_pass *pass);

/* Gives a pass back, which then isn't out any more. The handle is empty then.
 * CSQ_EMPTY_HANDLE; CSQ_OTHER_QUEUE; CSQ_HOLDING. Lock: held. */
CSQ_NODISCARD uint32_t csq_give_back(struct csq_queue *queue, struct csq_pass *pass);

/* Abandons a pass: frees it without giving it back. For a pass whose queue lives as long as the
 * program, since that queue counts the pass as out ever after and can neither be closed nor freed.
 * The handle is empty then.
 * CSQ_EMPTY_HANDLE; CSQ_HOLDING. Lock: not needed. */
CSQ_NODISCARD uint32_t csq_abandon_pass(struct csq_pass *pass);

/* Stores how many IRPs the pass holds, and how many it owes. CSQ_EMPTY_HANDLE. Lock: not needed. */
uint32_t csq_count_held(const struct csq_pass *pass, uint32_t *held, uint32_t *owed);

/* ---- Under the lock ---- */

/* Inserts an IRP for a file object (IoCsqInsertIrpEx), at the list's end, or at its front if
 * `front` isn't 0, and sets its cancel routine (IoSetCancelRoutine). CSQ_OK: it is pending.
 * CSQ_CANCELLED: it was cancelled before, so it isn't listed, the pass holds it, and
 * csq_complete_cancelled is due. In both cases *context names the IRP in its life.
 * CSQ_EMPTY_HANDLE; CSQ_OTHER_QUEUE; CSQ_UNKNOWN_IRP; CSQ_UNKNOWN_FILE; CSQ_NOT_HOME;
 * CSQ_FILE_CLOSED; CSQ_FILE_FULL; CSQ_FULL. Lock: held. */
CSQ_NODISCARD uint32_t csq_insert(struct csq_queue *queue, struct csq_pass *pass, uint32_t irp,
                                  uint32_t file, uint32_t front, struct csq_irp *context);

/* Removes the first listed IRP of a file object, or of any for CSQ_ANY, that no canceller has
 * (IoCsqRemoveNextIrp). The pass holds it then. CSQ_NONE also for an unknown file object.
 * CSQ_EMPTY_HANDLE; CSQ_OTHER_QUEUE; CSQ_NONE. Lock: held. */
CSQ_NODISCARD uint32_t csq_remove_next(struct csq_queue *queue, struct csq_pass *pass,
                                       uint32_t file, struct csq_irp *irp);

/* Removes the IRP of an insert context (IoCsqRemoveIrp). The pass holds it then. CSQ_NONE if the
 * IRP isn't listed in that life, or a canceller has it; also for an unknown IRP.
 * CSQ_EMPTY_HANDLE; CSQ_OTHER_QUEUE; CSQ_NONE. Lock: held. */
CSQ_NODISCARD uint32_t csq_remove(struct csq_queue *queue, struct csq_pass *pass,
                                  struct csq_irp irp);

/* Puts an IRP back that the pass got by a removal in this life (IoCsqInsertIrpEx of an IRP that was
 * removed): lists it for the file object that it was inserted for, at the list's end, or at its
 * front if `front` isn't 0, and sets its cancel routine. For a worker that can't serve it now, as
 * while its device is busy. CSQ_OK: it is pending, and the pass holds it no longer. CSQ_CANCELLED:
 * it was cancelled while a pass held it, so that no canceller has it; it isn't listed, the pass
 * holds it as cancelled, and csq_complete_cancelled is due. In both cases *context names the IRP as
 * `irp` does, since its life goes on: the context of its insert names it too. After a refusal the
 * pass holds it as before. A thread that removes and puts back in turns, and waits for nothing in
 * between, may go on for ever.
 * CSQ_EMPTY_HANDLE; CSQ_OTHER_QUEUE; CSQ_UNKNOWN_IRP; CSQ_NOT_HELD; CSQ_NOT_REMOVED;
 * CSQ_FILE_CLOSED; CSQ_FILE_FULL or CSQ_FULL (others were inserted in the meantime). Lock: held.
 * Since: 1.1. */
CSQ_NODISCARD uint32_t csq_put_back(struct csq_queue *queue, struct csq_pass *pass,
                                    struct csq_irp irp, uint32_t front, struct csq_irp *context);

/* Runs the cancel routine of an IRP that the pass owes in this life: takes it out of the list. The
 * pass holds it then, and csq_complete_cancelled is due.
 * CSQ_EMPTY_HANDLE; CSQ_OTHER_QUEUE; CSQ_UNKNOWN_IRP; CSQ_NOT_OWED. Lock: held. */
CSQ_NODISCARD uint32_t csq_cancel_routine(struct csq_queue *queue, struct csq_pass *pass,
                                          struct csq_irp irp);

/* Cancels an IRP that the pass owes in this life, the second half of csq_cancel:
 * csq_cancel_routine, and csq_complete_cancelled after it.
 * CSQ_EMPTY_HANDLE; CSQ_OTHER_QUEUE; CSQ_UNKNOWN_IRP; CSQ_NOT_OWED. Lock: held. */
CSQ_NODISCARD uint32_t csq_cancel_owed(struct csq_queue *queue, struct csq_pass *pass,
                                       struct csq_irp irp);

/* Closes a file object for good: the first half of IRP_MJ_CLEANUP. The second is to remove each IRP
 * that is listed for it (csq_remove_next) and to complete it as cancelled; csq_cleanup does both.
 * Closing it again is no fault.
 * CSQ_EMPTY_HANDLE; CSQ_OTHER_QUEUE; CSQ_UNKNOWN_FILE. Lock: held. */
CSQ_NODISCARD uint32_t csq_close_file(struct csq_queue *queue, struct csq_pass *pass,
                                      uint32_t file);

/* Begins the next life of an IRP that is completed in the life named, its present one (IoReuseIrp).
 * It is home then. Stores that next life.
 * CSQ_EMPTY_HANDLE; CSQ_OTHER_QUEUE; CSQ_UNKNOWN_IRP; CSQ_STALE (the present life is another);
 * CSQ_NOT_COMPLETED; CSQ_LIVES_SPENT. Lock: held. */
CSQ_NODISCARD uint32_t csq_reuse(struct csq_queue *queue, struct csq_pass *pass, struct csq_irp irp,
                                 uint32_t *life);

/* ---- What a driver does, beside this queue, under the lock ---- */

/* Removes an IRP beside a driver that removes it (IoCsqRemoveIrp), as csq_remove does, and stores
 * one of enum csq_remove_verdict: if it agrees, csq_remove would return CSQ_OK, and the pass holds
 * the IRP then. Whether another is listed is decided by its number. CSQ_EMPTY_HANDLE;
 * CSQ_OTHER_QUEUE. Lock: held. Since: 1.1. */
uint32_t csq_judge_remove(struct csq_queue *queue, struct csq_pass *pass, struct csq_irp irp,
                          uint32_t *verdict);

/* Completes an IRP beside a driver that completes it with this status (IoCompleteRequest), through
 * the pass that holds it: as csq_complete_cancelled does for STATUS_CANCELLED, and as csq_complete
 * for another. Stores one of enum csq_use_verdict; nothing is completed unless it agrees. Whether
 * an IRP that the pass doesn't hold is listed is decided by its number. CSQ_EMPTY_HANDLE;
 * CSQ_OTHER_QUEUE. Lock: held. Since: 1.1. */
uint32_t csq_judge_complete(struct csq_queue *queue, struct csq_pass *pass, struct csq_irp irp,
                            uint32_t status, uint32_t *verdict);

/* Judges the insert of an IRP that was in this queue before, in the life that it has there
 * (IoCsqInsertIrpEx). A driver may insert again what it removed, but not what is listed, or was
 * given to it as cancelled. Stores one of enum csq_use_verdict, never CSQ_USE_NOT_FINAL. If it
 * agrees the IRP is completed, so that csq_reuse begins its next life, in which csq_insert takes
 * it. CSQ_EMPTY_HANDLE; CSQ_OTHER_QUEUE. Lock: held. Since: 1.1. */
uint32_t csq_judge_insert(struct csq_queue *queue, struct csq_pass *pass, struct csq_irp irp,
                          uint32_t *verdict);

/* ---- Looks at an open queue, under the lock ---- */

/* Stores the first listed IRP of a file object, or of any for CSQ_ANY, in its present life: from
 * the first on if `after` is CSQ_ANY, otherwise after that one (CsqPeekNextIrp). It may be one
 * whose cancel routine a canceller has taken, which is listed until that canceller has run it.
 * CSQ_NONE also for an unknown file object.
 * CSQ_EMPTY_HANDLE; CSQ_CLOSED; CSQ_NOT_LISTED (`after` isn't listed); CSQ_NONE. Lock: held. */
uint32_t csq_peek_next(const struct csq_queue *queue, uint32_t after, uint32_t file,
                       struct csq_irp *irp);

/* Judges what a driver's own CsqPeekNextIrp returned for its list, beside this queue's: `answer`,
 * or CSQ_ANY for none, to a peek that went on after `after`, or from the first on for CSQ_ANY, for
 * a file object, or for any with CSQ_ANY. Stores one of enum csq_peek_verdict, and for
 * CSQ_PEEK_SKIPS in *skipped the match that comes first.
 * CSQ_EMPTY_HANDLE; CSQ_CLOSED; CSQ_NOT_LISTED (`after` isn't listed). Lock: held. Since: 1.1. */
uint32_t csq_judge_peek(const struct csq_queue *queue, uint32_t after, uint32_t file,
                        uint32_t answer, uint32_t *verdict, uint32_t *skipped);

/* Judges what a driver's IRP_MJ_CLEANUP left of a file object in this queue's list, but for IRPs of
 * these `count` numbers, which it may leave: those that a canceller has, and those that came after
 * it began. *left is the first that is left, or CSQ_ANY if none is. `file` is one file object:
 * CSQ_ANY isn't one.
 * CSQ_EMPTY_HANDLE; CSQ_CLOSED; CSQ_UNKNOWN_FILE. Lock: held. Since: 1.1. */
uint32_t csq_judge_cleanup(const struct csq_queue *queue, uint32_t file, const uint32_t *excused,
                           size_t count, uint32_t *left);

/* Stores how many IRPs are listed. CSQ_EMPTY_HANDLE; CSQ_CLOSED. Lock: held. */
uint32_t csq_len(const struct csq_queue *queue, uint32_t *len);

/* Stores how many IRPs are listed for a file object. CSQ_EMPTY_HANDLE; CSQ_CLOSED;
 * CSQ_UNKNOWN_FILE. Lock: held. */
uint32_t csq_file_len(const struct csq_queue *queue, uint32_t file, uint32_t *len);

/* ---- Without the lock ---- */

/* What IoCancelIrp does first: sets the Cancel flag of an IRP in the life named, then exchanges its
 * cancel routine for none. *found is 1 if the routine was there: the pass owes the IRP, and
 * csq_cancel_owed is due. It is 0 if the IRP isn't listed, or a pass, perhaps this one, has it. An
 * insert or a put-back that comes later finds the flag, and returns CSQ_CANCELLED unless another
 * canceller has the IRP by then.
 * CSQ_EMPTY_HANDLE; CSQ_UNKNOWN_IRP; CSQ_STALE. Lock: not needed. */
CSQ_NODISCARD uint32_t csq_mark_cancel(struct csq_pass *pass, struct csq_irp irp, uint32_t *found);

/* Completes an IRP that the pass got by a removal in this life (IoCompleteRequest), with any status
 * but STATUS_PENDING.
 * CSQ_EMPTY_HANDLE; CSQ_UNKNOWN_IRP; CSQ_NOT_HELD; CSQ_NOT_REMOVED; CSQ_NOT_FINAL. Lock: not
 * needed. */
CSQ_NODISCARD uint32_t csq_complete(struct csq_pass *pass, struct csq_irp irp, uint32_t status);

/* Completes an IRP that the pass holds in this life, however it got it, with STATUS_CANCELLED
 * (IoCompleteRequest).
 * CSQ_EMPTY_HANDLE; CSQ_UNKNOWN_IRP; CSQ_NOT_HELD. Lock: not needed. */
CSQ_NODISCARD uint32_t csq_complete_cancelled(struct csq_pass *pass, struct csq_irp irp);

/* Reads the Cancel flag of an IRP (Irp->Cancel): the life that it stands for, and 1 if it is set
 * there, otherwise 0.
 * CSQ_EMPTY_HANDLE; CSQ_UNKNOWN_IRP. Lock: not needed. */
uint32_t csq_read_cancel(struct csq_pass *pass, uint32_t irp, uint32_t *life, uint32_t *cancelled);

/* Reads the status of an IRP (Irp->IoStatus.Status): the life that it stands for, and what the IRP
 * was completed with in that life. CSQ_NONE if it isn't completed there; then *life is written, and
 * *status isn't.
 * CSQ_EMPTY_HANDLE; CSQ_UNKNOWN_IRP; CSQ_NONE. Lock: not needed. */
uint32_t csq_read_status(struct csq_pass *pass, uint32_t irp, uint32_t *life, uint32_t *status);

/* ---- What the thread sanitizer sees ---- */

#if defined(__has_feature)
#if __has_feature(thread_sanitizer)
#define CSQ_TSAN
#endif
#endif
#if defined(__SANITIZE_THREAD__) && !defined(CSQ_TSAN)
#define CSQ_TSAN
#endif
#if defined(CSQ_TSAN) && !defined(CSQ_NO_TSAN)

/* Reports the order that the head of this file promises ("Memory order") as a lock of each IRP that
 * is released before the one call and acquired after the other. Two queues may share such a lock,
 * and so may hide a race; no race is reported for that. A refused call releases it too. */
void __tsan_acquire(void *address);
void __tsan_release(void *address);
enum { CSQ_TSAN_LISTED, CSQ_TSAN_COMPLETED, CSQ_TSAN_LOCKS = 65536 };
__attribute__((weak)) char csq_tsan_locks[2][CSQ_TSAN_LOCKS];
static inline void *csq_tsan_lock(int kind, const struct csq_pass *pass, uint32_t irp) {
    return &csq_tsan_locks[kind][((pass->queue * UINT64_C(0x9E3779B97F4A7C15) >> 48) + irp) %
                                 CSQ_TSAN_LOCKS];
}

#define CSQ_TSAN_CALL CSQ_NODISCARD static inline uint32_t
CSQ_TSAN_CALL csq_tsan_insert(struct csq_queue *queue, struct csq_pass *pass, uint32_t irp,
                              uint32_t file, uint32_t front, struct csq_irp *context) {
    __tsan_release(csq_tsan_lock(CSQ_TSAN_LISTED, pass, irp));
    return csq_insert(queue, pass, irp, file, front, context);
}
CSQ_TSAN_CALL csq_tsan_put_back(struct csq_queue *queue, struct csq_pass *pass, struct csq_irp irp,
                                uint32_t front, struct csq_irp *context) {
    __tsan_release(csq_tsan_lock(CSQ_TSAN_LISTED, pass, irp.irp));
    return csq_put_back(queue, pass, irp, front, context);
}
CSQ_TSAN_CALL csq_tsan_mark_cancel(struct csq_pass *pass, struct csq_irp irp, uint32_t *found) {
    uint32_t code = csq_mark_cancel(pass, irp, found);
    if (code == CSQ_OK && *found) {
        __tsan_acquire(csq_tsan_lock(CSQ_TSAN_LISTED, pass, irp.irp));
    }
    return code;
}
CSQ_TSAN_CALL csq_tsan_complete(struct csq_pass *pass, struct csq_irp irp, uint32_t status) {
    __tsan_release(csq_tsan_lock(CSQ_TSAN_COMPLETED, pass, irp.irp));
    return csq_complete(pass, irp, status);
}
CSQ_TSAN_CALL csq_tsan_complete_cancelled(struct csq_pass *pass, struct csq_irp irp) {
    __tsan_release(csq_tsan_lock(CSQ_TSAN_COMPLETED, pass, irp.irp));
    return csq_complete_cancelled(pass, irp);
}
CSQ_TSAN_CALL csq_tsan_cancel_owed(struct csq_queue *queue, struct csq_pass *pass,
                                   struct csq_irp irp) {
    __tsan_release(csq_tsan_lock(CSQ_TSAN_COMPLETED, pass, irp.irp));
    return csq_cancel_owed(queue, pass, irp);
}
CSQ_TSAN_CALL csq_tsan_reuse(struct csq_queue *queue, struct csq_pass *pass, struct csq_irp irp,
                             uint32_t *life) {
    uint32_t code = csq_reuse(queue, pass, irp, life);
    if (code == CSQ_OK) {
        __tsan_acquire(csq_tsan_lock(CSQ_TSAN_COMPLETED, pass, irp.irp));
    }
    return code;
}
static inline uint32_t csq_tsan_read_status(struct csq_pass *pass, uint32_t irp, uint32_t *life,
                                            uint32_t *status) {
    uint32_t code = csq_read_status(pass, irp, life, status);
    if (code == CSQ_OK) {
        __tsan_acquire(csq_tsan_lock(CSQ_TSAN_COMPLETED, pass, irp));
    }
    return code;
}
static inline uint32_t csq_tsan_judge_complete(struct csq_queue *queue, struct csq_pass *pass,
                                               struct csq_irp irp, uint32_t status,
                                               uint32_t *verdict) {
    __tsan_release(csq_tsan_lock(CSQ_TSAN_COMPLETED, pass, irp.irp));
    return csq_judge_complete(queue, pass, irp, status, verdict);
}
static inline uint32_t csq_tsan_judge_insert(struct csq_queue *queue, struct csq_pass *pass,
                                             struct csq_irp irp, uint32_t *verdict) {
    __tsan_release(csq_tsan_lock(CSQ_TSAN_COMPLETED, pass, irp.irp));
    return csq_judge_insert(queue, pass, irp, verdict);
}
#undef CSQ_TSAN_CALL

#define csq_insert csq_tsan_insert
#define csq_put_back csq_tsan_put_back
#define csq_mark_cancel csq_tsan_mark_cancel
#define csq_complete csq_tsan_complete
#define csq_complete_cancelled csq_tsan_complete_cancelled
#define csq_cancel_owed csq_tsan_cancel_owed
#define csq_reuse csq_tsan_reuse
#define csq_read_status csq_tsan_read_status
#define csq_judge_complete csq_tsan_judge_complete
#define csq_judge_insert csq_tsan_judge_insert

#endif

/* ---- What a code says ---- */

/* The name of a code, as "CSQ_FULL"; "?" of a number that is no code. Lock: not needed. */
CSQ_INLINE const char *csq_name(uint32_t code) {
    static const char *const names[] = {
        "CSQ_OK",          "CSQ_UNKNOWN_IRP",  "CSQ_UNKNOWN_FILE",  "CSQ_NOT_HOME",
        "CSQ_FILE_CLOSED", "CSQ_FULL",         "CSQ_FILE_FULL",     "CSQ_CANCELLED",
        "CSQ_NONE",        "CSQ_STALE",        "CSQ_NOT_COMPLETED", "CSQ_LIVES_SPENT",
        "CSQ_NOT_HELD",    "CSQ_NOT_OWED",     "CSQ_NOT_REMOVED",   "CSQ_NOT_FINAL",
        "CSQ_HOLDING",     "CSQ_PASSES_OUT",   "CSQ_NO_PASS",       "CSQ_BAD_SIZE",
        "CSQ_NO_MEMORY",   "CSQ_EMPTY_HANDLE", "CSQ_NOT_EMPTY",     "CSQ_NOT_LISTED",
        "CSQ_CLOSED",      "CSQ_NOT_CLOSED",   "CSQ_OTHER_QUEUE",   "CSQ_UNKNOWN_PASS",
        "CSQ_LOCK_HELD",   "CSQ_NOT_NEXT"
    };
    return code < sizeof names / sizeof *names ? names[code] : "?";
}

/* The NTSTATUS that a driver's dispatch routine returns after csq_insert returned this code:
 * STATUS_PENDING if the IRP was accepted, or was found cancelled and is completed so;
 * STATUS_FILE_CLOSED and STATUS_INSUFFICIENT_RESOURCES if the file object or the list took no more;
 * STATUS_INVALID_PARAMETER for what is a fault of the program's. Lock: not needed. */
CSQ_INLINE uint32_t csq_insert_status(uint32_t code) {
    switch (code) {
    case CSQ_OK:
    case CSQ_CANCELLED: return CSQ_STATUS_PENDING;
    case CSQ_FILE_CLOSED: return CSQ_STATUS_FILE_CLOSED;
    case CSQ_FULL:
    case CSQ_FILE_FULL: return CSQ_STATUS_INSUFFICIENT_RESOURCES;
    default: return CSQ_STATUS_INVALID_PARAMETER;
    }
}

/* ---- Calls made of others, which take the lock themselves ---- */

/* The caller's lock of a queue, as CsqAcquireLock and CsqReleaseLock: two functions, and what they
 * are called with. They return to their caller (by no exception and no longjmp) and make no call
 * with this queue or this pass. */
struct csq_lock {
    void (*lock)(void *context);
    void (*unlock)(void *context);
    void *context;
};

/* A function that is called with an IRP that is about to be completed as cancelled, as
 * CsqCompleteCanceledIrp is, and what it is called with. The lock is free then, and the IRP is the
 * calling pass's alone: what the function writes for the IRP's owner is seen by any thread that
 * learns of the completion. It returns to its caller (by no exception and no longjmp), makes no
 * call with this pass, and may make any other call. */
struct csq_callback {
    void (*before_completion)(void *context, struct csq_irp irp);
    void *context;
};

/* Functions that are called round a completion as cancelled, with the IRP, and what they are called
 * with. Either may be NULL. `before_completion` is that of struct csq_callback. `after_completion`
 * is called once the IRP is completed, with the lock free and the IRP nobody's: a thread that is
 * woken there finds its status and may begin its next life (csq_reuse). It returns to its caller
 * (by no exception and no longjmp), and may make any call, also with this queue and this pass, but
 * doesn't give the pass back or abandon it. Since: 1.1. */
struct csq_events {
    void (*before_completion)(void *context, struct csq_irp irp);
    void (*after_completion)(void *context, struct csq_irp irp);
    void *context;
};

/* csq_cancel, with the events, which may be NULL, in the place of the callback. Lock: not held.
 * Since: 1.1. */
CSQ_NODISCARD CSQ_INLINE uint32_t csq_cancel_with(struct csq_queue *queue, struct csq_pass *pass,
                                                  struct csq_irp irp, const struct csq_lock *lock,
                                                  const struct csq_events *events,
                                                  uint32_t *completed) {
    uint32_t code, found = 0;
    if (pass->at && pass->queue != queue->number) {
        /* Before the mark, which looks at no queue. Only an empty handle has the number 0. */
        return queue->number ? (uint32_t)CSQ_OTHER_QUEUE : (uint32_t)CSQ_EMPTY_HANDLE;
    }
    code = csq_mark_cancel(pass, irp, &found);
    if (code == CSQ_OK && found) {
        if (events && events->before_completion) {
            events->before_completion(events->context, irp);
        }
        lock->lock(lock->context);
        /* Never refused: a pass that is out keeps its queue open. */
        code = csq_cancel_owed(queue, pass, irp);
        lock->unlock(lock->context);
        if (code == CSQ_OK && events && events->after_completion) {
            events->after_completion(events->context, irp);
        }
    }
    if (code == CSQ_OK) {
        *completed = found;
    }
    return code;
}

/* csq_drain, with the events, which may be NULL, in the place of the callback. An IRP that is used
 * again for this file object after its completion is drained again. Lock: not held. Since: 1.1. */
CSQ_NODISCARD CSQ_INLINE uint32_t csq_drain_with(struct csq_queue *queue, struct csq_pass *pass,
                                                 uint32_t file, const struct csq_lock *lock,
                                                 const struct csq_events *events,
                                                 uint32_t *completed) {
    struct csq_irp irp = { 0, 0 };
    uint32_t code, found, len = 0, count = 0;
    do {
        lock->lock(lock->context);
        code = csq_remove_next(queue, pass, file, &irp);
        found = code == CSQ_OK;
        if (code == CSQ_NONE) {
            /* That none is left is the end, unless there is no such file object. */
            code = file == CSQ_ANY ? (uint32_t)CSQ_OK : csq_file_len(queue, file, &len);
        }
        lock->unlock(lock->context);
        if (found) {
            if (events && events->before_completion) {
                events->before_completion(events->context, irp);
            }
            code = csq_complete_cancelled(pass, irp);
            count += code == CSQ_OK;
            if (code == CSQ_OK && events && events->after_completion) {
                events->after_completion(events->context, irp);
            }
        }
    } while (found && code == CSQ_OK);
    if (code == CSQ_OK) {
        *completed = count;
    }
    return code;
}

/* csq_cleanup, with the events, which may be NULL, in the place of the callback. Lock: not held.
 * Since: 1.1. */
CSQ_NODISCARD CSQ_INLINE uint32_t csq_cleanup_with(struct csq_queue *queue, struct csq_pass *pass,
                                                   uint32_t file, const struct csq_lock *lock,
                                                   const struct csq_events *events,
                                                   uint32_t *completed) {
    uint32_t code;
    lock->lock(lock->context);
    code = csq_close_file(queue, pass, file);
    lock->unlock(lock->context);
    return code == CSQ_OK ? csq_drain_with(queue, pass, file, lock, events, completed) : code;
}

/* Cancels an IRP in the life named (IoCancelIrp): csq_mark_cancel, and if the routine was there the
 * callback, which may be NULL, and csq_cancel_owed under the lock. *completed is 1 if the IRP was
 * completed here, otherwise 0. While the callback is called with the IRP it is listed still, so it
 * counts for the limits and for csq_file_len.
 * CSQ_EMPTY_HANDLE; CSQ_OTHER_QUEUE; CSQ_UNKNOWN_IRP; CSQ_STALE. Lock: not held; it is taken only
 * if the routine was there. */
CSQ_NODISCARD CSQ_INLINE uint32_t csq_cancel(struct csq_queue *queue, struct csq_pass *pass,
                                             struct csq_irp irp, const struct csq_lock *lock,
                                             const struct csq_callback *callback,
                                             uint32_t *completed) {
    struct csq_events events = { callback ? callback->before_completion : 0, 0,
                                 callback ? callback->context : 0 };
    return csq_cancel_with(queue, pass, irp, lock, &events, completed);
}

/* Removes each IRP that is listed for a file object, or each for CSQ_ANY, and completes it as
 * cancelled; before that the callback, which may be NULL, is called with it, when it isn't listed
 * any more. (WDF calls this a purge, and lets the requests of a drain be processed.) The file
 * object stays open. *completed is how many. What a canceller has is left to that canceller, and is
 * listed until then (csq_file_len). What was removed before isn't listed, and is for this file
 * object again if it is put back. It ends once it finds none, so it may go on for as long as others
 * insert or put back.
 * CSQ_EMPTY_HANDLE; CSQ_OTHER_QUEUE; CSQ_UNKNOWN_FILE. Lock: not held; it is taken for each
 * removal, and free between two of them. */
CSQ_NODISCARD CSQ_INLINE uint32_t csq_drain(struct csq_queue *queue, struct csq_pass *pass,
                                            uint32_t file, const struct csq_lock *lock,
                                            const struct csq_callback *callback,
                                            uint32_t *completed) {
    struct csq_events events = { callback ? callback->before_completion : 0, 0,
                                 callback ? callback->context : 0 };
    return csq_drain_with(queue, pass, file, lock, &events, completed);
}

/* Handles IRP_MJ_CLEANUP of a file object: csq_close_file, then csq_drain. *completed is how many
 * IRPs were completed. Answers as csq_close_file does. Lock: not held; it is taken for each call,
 * and free between two of them. */
CSQ_NODISCARD CSQ_INLINE uint32_t csq_cleanup(struct csq_queue *queue, struct csq_pass *pass,
                                              uint32_t file, const struct csq_lock *lock,
                                              const struct csq_callback *callback,
                                              uint32_t *completed) {
    struct csq_events events = { callback ? callback->before_completion : 0, 0,
                                 callback ? callback->context : 0 };
    return csq_cleanup_with(queue, pass, file, lock, &events, completed);
}

#ifdef __cplusplus
}
#endif

#endif
