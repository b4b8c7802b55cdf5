/*
 * csq_replay.h: a machine that replays the atomic steps of cancel-safe queues, one after the other,
 * and refuses each step that the protocol forbids. For a test of a driver's cancel path, which
 * tells it each step that the driver made: the first one that is refused is where the driver leaves
 * the protocol, and the refusal says why. In the proved library the machine is proved to accept
 * just the executions of the protocol; it is the one by which csqsim replays a schedule. Its calls
 * take no lock, wait for nothing and start nothing: a replay is in one call at a time.
 *
 * A pass makes its steps one after the other, as a thread does. Each step is one access to one word
 * of an IRP, its Cancel flag or its cancel routine, or changes the list alone:
 *
 *     a step            in a driver                                              finds
 *     CSQ_STEP_ARM      IoSetCancelRoutine(Irp, routine) by an insert            the routine
 *     CSQ_STEP_TEST     Irp->Cancel, read by an insert or a put-back             the flag
 *     CSQ_STEP_DISARM   IoSetCancelRoutine(Irp, NULL), by a removal; by an       the routine
 *                       insert or a put-back that found the flag set
 *     CSQ_STEP_END      a removal that found no routine ends, and names no IRP   0
 *     CSQ_STEP_FLAG     IoCancelIrp sets Irp->Cancel                             the flag
 *     CSQ_STEP_TAKE     IoCancelIrp takes the cancel routine                     the routine
 *     CSQ_STEP_OUT      the cancel routine takes the IRP out of the list         0
 *     CSQ_STEP_DONE     IoCompleteRequest                                        0
 *     CSQ_STEP_RENEW    IoReuseIrp: the IRP's next life begins                   0
 *     CSQ_STEP_REARM    IoSetCancelRoutine(Irp, routine) by a put-back           the routine
 *
 * What a step finds is what its word held before it, 1 or 0. An IRP that an arm listed is listed
 * until a disarm finds its routine, or until its out. Whoever finds the routine has the IRP: by a
 * disarm it holds it, by a take it owes it until its out, and then holds it. It completes what it
 * holds. A pass has the queue's lock from the first step of an insert, a put-back or a removal to
 * the last one; an out and a renew are made under it too.
 *
 * - csq_replay_new takes memory. No other call does.
 *
 * A code is the first cause that the call's comment names. Each call but csq_replay_new returns
 * CSQ_EMPTY_HANDLE before these if the handle is empty. A refusal, which is any code but CSQ_OK,
 * changes nothing and writes nothing, but for what csq_replay_step stores of it.
 *
 * What the caller must uphold is what csq.h asks for: a handle is in one call at a time, pointers
 * are valid, none is null, and those of one call don't overlap.
 * Since: 1.1.
 */
#ifndef CSQ_REPLAY_H
#define CSQ_REPLAY_H

#include "csq.h"

#ifdef __cplusplus
extern "C" {
#endif

/* The kinds of steps, with the words by which csqsim's schedules name them. */
enum csq_step_kind {
    CSQ_STEP_ARM = 1,    /* arm */
    CSQ_STEP_TEST = 2,   /* test */
    CSQ_STEP_DISARM = 3, /* disarm */
    CSQ_STEP_END = 4,    /* end */
    CSQ_STEP_FLAG = 5,   /* flag */
    CSQ_STEP_TAKE = 6,   /* take */
    CSQ_STEP_OUT = 7,    /* out */
    CSQ_STEP_DONE = 8,   /* done */
    CSQ_STEP_RENEW = 9,  /* renew */
    CSQ_STEP_REARM = 10  /* rearm */
};

/* The call that a pass is inside of, between the first of its steps and the last. */
enum csq_inside_call {
    CSQ_INSIDE_NONE = 0,
    CSQ_INSIDE_INSERT = 1,
    CSQ_INSIDE_REMOVAL = 2,
    CSQ_INSIDE_CANCEL = 3,
    CSQ_INSIDE_PUT_BACK = 4
};

/* Where an IRP is in its present life. */
enum csq_irp_place {
    CSQ_PLACE_HOME = 0,     /* it wasn't armed yet */
    CSQ_PLACE_LISTED = 1,   /* it is in the list, and its cancel routine is set */
    CSQ_PLACE_OWED = 2,     /* it is in the list, and a take found its cancel routine */
    CSQ_PLACE_HELD = 3,     /* a pass has it, and is to complete it */
    CSQ_PLACE_COMPLETED = 4 /* it was completed */
};

/* A replay. It begins as { NULL }, csq_replay_new fills it, and csq_replay_free empties it. */
struct csq_replay {
    void *at;
};

/* A step that a pass is to make. */
struct csq_step {
    uint64_t number;    /* the caller's own, as the step's line: a refusal names steps by it */
    uint32_t pass;      /* from 1 on */
    uint32_t kind;      /* of enum csq_step_kind */
    struct csq_irp irp; /* the IRP, in one of its lives; CSQ_STEP_END doesn't look at it */
};

/* What a pass is inside of. All is 0 of a pass that is inside of no call. */
struct csq_inside {
    uint32_t call;      /* of enum csq_inside_call */
    uint32_t next;      /* its next step. CSQ_STEP_DISARM of a removal is that of any IRP, and
                         * CSQ_STEP_END may come in its place */
    struct csq_irp irp; /* the IRP that the next step names; 0s of a removal */
    uint64_t since;     /* the number of the call's first step */
};

/* Whom a refusal is about. */
struct csq_refusal {
    uint32_t pass;            /* of CSQ_LOCK_HELD the pass that has the lock, otherwise the step's
                               * own */
    uint32_t life;            /* of CSQ_STALE the IRP's present life, otherwise 0 */
    struct csq_inside inside; /* what that pass is inside of */
};

/* Where an IRP is. */
struct csq_placed {
    uint32_t life;      /* its present life, of which the others are */
    uint32_t place;     /* of enum csq_irp_place */
    uint32_t pass;      /* who owes it, holds it or completed it; 0 if it is home or listed */
    uint32_t status;    /* what it was completed with; 0 if it wasn't */
    uint32_t cancelled; /* 1 if its Cancel flag is set, otherwise 0 */
};

/* ---- A replay's beginning and end ---- */

/* Makes a replay without a step, of the IRPs 0 to irps - 1, all in the life first_life, and of the
 * passes 1 to `passes`. The other numbers of the size aren't looked at.
 * CSQ_NOT_EMPTY; CSQ_BAD_SIZE; CSQ_NO_MEMORY. */
CSQ_NODISCARD uint32_t csq_replay_new(struct csq_replay *replay, const struct csq_size *size);

/* Frees it, at rest or not. The handle is empty then. */
uint32_t csq_replay_free(struct csq_replay *replay);

/* ---- Steps, and what they led to ---- */

/* Makes a step, if it may come next, and stores in *found what it finds. If it may not the code is
 * the first cause that holds, and *refusal says whom it is about (but CSQ_BAD_SIZE stores nothing).
 * CSQ_BAD_SIZE (the kind is none of enum csq_step_kind); CSQ_UNKNOWN_IRP; CSQ_UNKNOWN_PASS;
 * CSQ_LOCK_HELD; CSQ_NOT_NEXT; CSQ_NOT_HOME (an arm in a life in which the IRP was armed before);
 * CSQ_NOT_LISTED (a disarm of what isn't listed in the life named); CSQ_NOT_OWED (an out);
 * CSQ_NOT_HELD (a done; a rearm also of what the pass got by no removal); CSQ_STALE (an arm, a flag
 * or a renew); CSQ_NOT_COMPLETED, CSQ_LIVES_SPENT (a renew). */
CSQ_NODISCARD uint32_t csq_replay_step(struct csq_replay *replay, const struct csq_step *step,
                                       uint32_t *found, struct csq_refusal *refusal);

/* Whether all is at rest: each call has made its last step, and nobody owes or holds an IRP. If it
 * isn't, CSQ_HOLDING. */
CSQ_NODISCARD uint32_t csq_replay_rest(const struct csq_replay *replay);

/* Stores where an IRP is. CSQ_UNKNOWN_IRP. */
uint32_t csq_replay_irp(const struct csq_replay *replay, uint32_t irp, struct csq_placed *placed);

#ifdef __cplusplus
}
#endif

#endif
