/* IRPs whose cancel routine the driver sets itself, by IoSetCancelRoutine: what is known of each,
 * and its atomic steps. A pass is a thread here.
 *
 *     IoSetCancelRoutine(Irp, routine)   arm; rearm of an IRP that the driver holds
 *     Irp->Cancel is read after that     test (accesses.c sees it)
 *     IoSetCancelRoutine(Irp, NULL)      disarm, and end if it returns NULL
 *     IoCancelIrp                        flag, take
 *     RemoveEntryList by the routine     out; of an IRP in no LIST_ENTRY, with its completion
 *     IoCompleteRequest                  done
 *
 * Nothing here is a report: a step that the protocol forbids is kept as it was made, and a replay
 * refuses it. What can't be said in these words is left out, with the cause. */
#include "reference.h"

/* In turns alone is the order of two threads' steps known; and what an IO_CSQ has, the queue beside
 * it notes. */
static bool is_kept(const struct iocsq_irp *i) {
    return iocsq_in_turns() && (i->hand.armed || !i->stay);
}

static void leave_out(struct iocsq_irp *i, const char *why) {
    if (!i->hand.left_out) {
        i->hand.left_out = why;
    }
}

/* This thread as a pass: in the queue beside the sixteen passes have the first threads' numbers. */
static uint32_t this_pass(struct iocsq_irp *i) {
    if (i->stay && iocsq_thread() >= IOCSQ_PASSES) {
        leave_out(i, "a thread's number isn't that of its pass in the queue beside");
    }
    return iocsq_thread();
}

static uint64_t bit_of(uint32_t thread) {
    return UINT64_C(1) << (thread & 63);
}

/* ---- The driver reads Irp->Cancel ---- */
/* Without a lock others may come between the arm and the look, which the steps can't say, since an
 * insert has the lock from its arm to its test. */
static void look_without_lock(struct iocsq_irp *i) {
    if (i->hand.released && i->step_count != i->hand.released_at) {
        leave_out(i, "another comes between where its cancel routine is set and the look at "
                     "Irp->Cancel, which its thread does without a lock");
    }
    i->hand.released = false;
}

static void test(struct iocsq_irp *i) {
    look_without_lock(i);
    iocsq_step(i, i->hand.by, "test");
    i->hand.arming = 0;
    i->hand.must_disarm = i->irp.Cancel ? iocsq_thread() : 0;
}

void iocsq_hand_look(struct iocsq_irp *i) {
    struct iocsq_hand *h = &i->hand;
    if (!iocsq_in_turns() || (!is_kept(i) && i->place != IOCSQ_REMOVED)) {
        return;
    }
    iocsq_point(); /* a cancel may come just before */
    if (h->arming == iocsq_thread()) {
        test(i);
    } else if (h->state == IOCSQ_HAND_NONE || h->state == IOCSQ_HAND_HELD) {
        h->looked = iocsq_thread();
        h->looked_at = i->step_count;
        h->looked_in = iocsq_cancel_lock_hold();
        h->saw = i->irp.Cancel;
    }
}

/* ---- The driver sets a routine ---- */
/* The IRP was removed from an IO_CSQ, and its first routine of the driver's own is set. */
static void go_on_after_removal(struct iocsq_irp *i) {
    struct iocsq_hand *h = &i->hand;
    if (i->place != IOCSQ_REMOVED) {
        leave_out(i, "a cancel routine is set though a cancel has the IRP");
        return;
    }
    for (uint32_t pass = 0; pass < IOCSQ_PASSES; pass++) {
        if (h->flagging >> pass & 1) {
            iocsq_step(i, pass, "flag"); /* Irp->Cancel is set, and its queue has yet to hear it */
        }
    }
    h->flagged |= h->flagging;
    h->flagging = 0;
    h->state = IOCSQ_HAND_HELD;
    h->holder = i->pass;
}

/* The IRP whose routine this thread has set, and at whose flag it has yet to look; null: none. */
static struct iocsq_irp *armed_by_this(void) {
    struct iocsq_irp *i = iocsq_own.arming ? iocsq_irp_number(iocsq_own.arming - 1) : NULL;
    return i && i->hand.arming == iocsq_thread() ? i : NULL;
}

void iocsq_hand_release(void) {
    struct iocsq_irp *i = armed_by_this();
    if (i && !i->hand.released) {
        i->hand.released = true;
        i->hand.released_at = i->step_count;
    }
}

/* A thread sets routines of two IRPs before it looks at the first one's flag. */
static void note_arming(struct iocsq_irp *i) {
    struct iocsq_irp *other = iocsq_own.arming ? iocsq_irp_number(iocsq_own.arming - 1) : NULL;
    if (other && other != i && other->hand.arming == iocsq_thread()) {
        other->hand.arming = 0;
        leave_out(other, "its thread sets another IRP's cancel routine before it looks");
    }
    i->hand.arming = iocsq_thread();
    iocsq_own.arming = i->index + 1;
    if (iocsq_own.lock_count == 0) {
        iocsq_hand_release();
    }
}

/* With the cancel spin lock held from the look on, no cancel came between: so the look is as good
 * as one after. */
static bool looked_before(const struct iocsq_irp *i) {
    const struct iocsq_hand *h = &i->hand;
    return h->looked == iocsq_thread() && h->looked_in && h->looked_in == iocsq_cancel_lock_hold();
}

static void arm(struct iocsq_irp *i, const void *at) {
    struct iocsq_hand *h = &i->hand;
    if (i->stay && !h->armed) {
        go_on_after_removal(i);
    }
    bool again = h->state == IOCSQ_HAND_HELD;
    if (h->state != IOCSQ_HAND_NONE && !again) {
        leave_out(i, "a cancel routine is set in the place of another");
    }
    h->by = again ? h->holder : this_pass(i);
    h->set_at = at;
    h->released = h->started = false;
    iocsq_step(i, h->by, again ? "rearm" : "arm");
    h->state = IOCSQ_HAND_ARMED;
    h->armed = true;
    note_arming(i);
    if (looked_before(i) && h->saw == i->irp.Cancel) {
        test(i);
    } else if (looked_before(i)) {
        leave_out(i, "Irp->Cancel is set without the cancel spin lock between the look and the "
                     "cancel routine");
    }
    h->looked = h->arming == 0 ? 0 : h->looked;
}

/* ---- The driver takes it back ---- */
/* A removal that finds no routine, since a cancel has it. The same thread's next ones find none
 * either, and are left out. */
static void miss(struct iocsq_irp *i, uint32_t pass, bool must) {
    if (i->hand.told & bit_of(iocsq_thread()) && !must) {
        return;
    }
    iocsq_step(i, pass, "disarm");
    if (!must) {
        iocsq_step(i, pass, "end");
    }
    i->hand.told |= bit_of(iocsq_thread());
}

static void disarm(struct iocsq_irp *i) {
    struct iocsq_hand *h = &i->hand;
    uint32_t me = iocsq_thread();
    if (h->arming == me) {
        test(i); /* it takes the routine back in any case: a look before would change nothing */
    }
    bool must = h->must_disarm == me;
    uint32_t pass = must ? h->by : this_pass(i);
    if (h->state == IOCSQ_HAND_ARMED) {
        iocsq_step(i, pass, "disarm");
        h->state = IOCSQ_HAND_HELD;
        h->holder = pass;
    } else if (h->state == IOCSQ_HAND_OWED && (h->holder != me || h->returned)) {
        miss(i, pass, must);
    }
    h->must_disarm = must ? 0 : h->must_disarm;
}

static void cover_set(const struct iocsq_irp *i, bool sets, bool found) {
    if (sets) {
        iocsq_cover(IOCSQ_HAND_SET);
    } else if (found) {
        iocsq_cover(IOCSQ_HAND_TAKEN_BACK);
    } else if (i->hand.armed) {
        iocsq_cover(IOCSQ_HAND_GONE);
    }
}

void iocsq_hand_set(struct iocsq_irp *i, bool sets, bool found, const void *at) {
    cover_set(i, sets, found);
    if (sets && iocsq_is_by_hand()) {
        i->late = iocsq_is_closing(i->file);
    }
    if (sets && iocsq_in_turns()) {
        arm(i, at);
    } else if (!sets && is_kept(i)) {
        disarm(i);
    }
}

/* The thread that has set the routine won't look any more. Its insert was over as it released its
 * last lock, or is now. */
static void end_arming(struct iocsq_irp *i) {
    struct iocsq_hand *h = &i->hand;
    if (h->looked == h->arming) {
        iocsq_step_before(i, h->looked_at, h->by, "test"); /* it looked before */
    } else if (h->started) {
        leave_out(i, "IoStartPacket has set its cancel routine, and StartIo doesn't look");
    } else {
        iocsq_step_before(i, h->released ? h->released_at : i->step_count, h->by, "end");
    }
    h->arming = 0;
    h->released = false;
}

void iocsq_hand_let_go(void) {
    struct iocsq_irp *i = armed_by_this();
    iocsq_own.arming = 0;
    if (i) {
        end_arming(i);
    }
}

void iocsq_hand_start(struct iocsq_irp *i) {
    i->hand.started = true;
    iocsq_hand_release();
}

/* ---- IoCancelIrp ---- */
void iocsq_hand_flag(struct iocsq_irp *i) {
    struct iocsq_hand *h = &i->hand;
    uint16_t me = (uint16_t)(iocsq_thread() < IOCSQ_PASSES ? 1u << iocsq_thread() : 0);
    iocsq_own.took = false;
    if (!iocsq_in_turns()) {
        return;
    }
    if (is_kept(i)) {
        iocsq_step(i, this_pass(i), "flag");
        h->flagged |= i->stay ? me : 0;
    } else {
        h->flagging |= me;
    }
}

void iocsq_hand_mark(struct iocsq_irp *i, uint32_t pass) {
    struct iocsq_hand *h = &i->hand;
    uint16_t me = (uint16_t)(1u << pass);
    if (!iocsq_in_turns()) {
        return;
    }
    if (!(h->flagged & me)) {
        iocsq_step(i, pass, "flag");
    }
    h->flagged &= (uint16_t)~me;
    h->flagging &= (uint16_t)~me;
    if (!h->armed) {
        iocsq_step(i, pass, "take");
        iocsq_own.took = true;
    }
}

void iocsq_hand_take(struct iocsq_irp *i, bool found) {
    struct iocsq_hand *h = &i->hand;
    if (!is_kept(i)) {
        return;
    }
    if (iocsq_own.took && found) {
        leave_out(i, "a cancel looks for the queue's routine, and then finds the driver's own");
    }
    if (!iocsq_own.took) {
        iocsq_step(i, this_pass(i), "take");
    }
    if (found) {
        h->state = IOCSQ_HAND_OWED;
        h->holder = iocsq_thread();
        h->told = 0;
        h->begun = h->returned = false;
    }
}

void iocsq_hand_begin(struct iocsq_irp *i) {
    i->hand.begun = true;
}

/* From now on any thread may end what the routine handed over to it. */
void iocsq_hand_return(struct iocsq_irp *i) {
    i->hand.returned = true;
}

/* ---- The driver's list ---- */
void iocsq_hand_link(struct iocsq_irp *i, bool links) {
    struct iocsq_hand *h = &i->hand;
    if (!iocsq_in_turns()) {
        return;
    }
    h->linked = links;
    if (!links && h->state == IOCSQ_HAND_OWED && h->holder == iocsq_thread() && is_kept(i)) {
        iocsq_step(i, h->holder, "out");
        h->state = IOCSQ_HAND_HELD;
    }
}

/* ---- IoCompleteRequest ---- */
/* The IRP is completed a second time, and the first was by a thread that had been told that the
 * IRP isn't its own: so it was that thread's fault. The routine's thread still owes the IRP. */
static void blame_first(struct iocsq_irp *i) {
    struct iocsq_hand *h = &i->hand;
    iocsq_take_back_steps(i, h->doubtful_at, h->doubtful_at + (h->dangling ? 1 : 2));
    iocsq_step_before(i, h->doubtful_at, h->doubtful, "done");
    h->thief = h->doubtful;
    h->doubtful = 0;
    h->state = IOCSQ_HAND_OWED;
    h->dangling = false;
}

/* By its routine, by a thread to which that handed it over, or by one that has no right to it. */
static void complete_owed(struct iocsq_irp *i) {
    struct iocsq_hand *h = &i->hand;
    uint32_t me = iocsq_thread();
    if (h->holder != me && !h->begun) {
        h->thief = me;
        iocsq_step(i, this_pass(i), "done");
        return;
    }
    h->doubtful = h->holder != me && h->told & bit_of(me) ? me : 0;
    h->doubtful_at = i->step_count;
    h->dangling = h->linked;
    if (!h->linked) {
        iocsq_step(i, h->holder, "out");
    }
    iocsq_step(i, h->holder, "done");
    h->state = IOCSQ_HAND_DONE;
}

void iocsq_hand_done(struct iocsq_irp *i) {
    struct iocsq_hand *h = &i->hand;
    if (!h->armed || !iocsq_in_turns()) {
        return;
    }
    if (i->passed_on) {
        leave_out(i, "it was passed on to a lower driver");
    }
    if (h->arming && h->released) {
        end_arming(i); /* of an IRP that is completed nobody reads the flag */
    }
    if (h->state == IOCSQ_HAND_DONE && h->doubtful && i->step_count <= IOCSQ_STEPS) {
        blame_first(i);
    }
    if (h->state == IOCSQ_HAND_OWED) {
        complete_owed(i);
    } else if (h->state == IOCSQ_HAND_HELD) {
        iocsq_step(i, h->holder, "done");
        h->state = IOCSQ_HAND_DONE;
    } else {
        iocsq_step(i, this_pass(i), "done");
    }
}

/* ---- Beside an IO_CSQ ---- */
void iocsq_hand_end(struct iocsq_irp *i, bool goes_on) {
    const struct iocsq_hand *h = &i->hand;
    struct iocsq_hand none = { .linked = h->linked };
    if (goes_on) {
        none.left_out = h->left_out;
        none.flagging = h->flagging;
        none.flagged = h->flagged;
    }
    i->hand = none;
}

uint32_t iocsq_hand_pass(const struct iocsq_irp *i) {
    return i->hand.state == IOCSQ_HAND_HELD ? i->hand.holder : i->pass;
}

void iocsq_explain_hand(const struct iocsq_irp *i) {
    const struct iocsq_hand *h = &i->hand;
    if (h->thief) {
        fprintf(stderr, "  t%u completed it though %s.\n", h->thief,
                iocsq_has_framework()
                    ? "WdfRequestUnmarkCancelable had returned STATUS_CANCELLED: then "
                      "EvtRequestCancel completes it"
                    : "its cancel routine was taken: IoSetCancelRoutine(Irp, NULL) returns NULL "
                      "then, and the IRP is left to the routine");
    }
    if (h->dangling) {
        fprintf(stderr, "  Its cancel routine completed it, and left it in the driver's list: "
                        "RemoveEntryList comes first.\n");
    }
}
