#include "reference.h"

static struct iocsq_reference *references[IOCSQ_QUEUES];

/* ---- A stay: queue, slot and life in one word, so that a canceller reads them together ---- */
static uint64_t stay_at(const struct iocsq_reference *r, uint32_t slot, uint32_t life) {
    return (uint64_t)1 << 63 | (uint64_t)r->index << 48 | (uint64_t)slot << 32 | life;
}

static struct iocsq_reference *reference_of(uint64_t stay) {
    return references[stay >> 48 & (IOCSQ_QUEUES - 1)];
}

static struct csq_irp irp_of(uint64_t stay) {
    struct csq_irp irp = { (uint32_t)(stay >> 32) & 0xFFFF, (uint32_t)stay };
    return irp;
}

static void expect(uint32_t code, uint32_t expected, const char *call) {
    if (code != expected) {
        iocsq_fail("%s answered %s", call, csq_name(code));
    }
}

/* ---- Passes ---- */
/* Any is taken for one call, but what one holds or owes is ended through the same. */
uint32_t iocsq_pass_of_thread(void) {
    return iocsq_thread() % IOCSQ_PASSES;
}

static uint32_t lend_pass(struct iocsq_reference *r) {
    uint32_t first = iocsq_pass_of_thread(), at = first;
    while (!iocsq_try_lock(&r->passes[at].mutex)) {
        at = (at + 1) % IOCSQ_PASSES;
        if (at == first) {
            iocsq_lock(&r->passes[at].mutex);
            break;
        }
    }
    return at;
}

static void lend_this_pass(struct iocsq_reference *r, uint32_t pass) {
    iocsq_lock(&r->passes[pass].mutex);
}

static void return_pass(struct iocsq_reference *r, uint32_t pass) {
    iocsq_unlock(&r->passes[pass].mutex);
}

/* ---- Beginning and end ---- */
void iocsq_reference_begin(struct iocsq_reference *r, uint32_t index) {
    const struct csq_size size = { .irps = IOCSQ_SLOTS,
                                   .files = IOCSQ_NUMBERS,
                                   .limit = IOCSQ_SLOTS,
                                   .passes = IOCSQ_PASSES,
                                   .first_life = 0,
                                   .list = CSQ_CHAINS };
    r->index = index;
    iocsq_begin_mutex(&r->mutex);
    expect(csq_new(&r->queue, &size), CSQ_OK, "csq_new");
    for (uint32_t at = 0; at < IOCSQ_PASSES; at++) {
        iocsq_begin_mutex(&r->passes[at].mutex);
        expect(csq_take_pass(&r->queue, &r->passes[at].pass), CSQ_OK, "csq_take_pass");
    }
    for (r->free_count = 0; r->free_count < IOCSQ_SLOTS; r->free_count++) {
        r->free_slots[r->free_count] = IOCSQ_SLOTS - 1 - r->free_count;
    }
    references[index] = r;
}

void iocsq_reference_end(struct iocsq_reference *r) {
    uint32_t left;
    for (uint32_t at = 0; at < IOCSQ_PASSES; at++) {
        expect(csq_give_back(&r->queue, &r->passes[at].pass), CSQ_OK, "csq_give_back");
    }
    expect(csq_close(&r->queue), CSQ_OK, "csq_close");
    expect(csq_read_listed(&r->queue, CSQ_ANY, &left), CSQ_NONE,
           "csq_read_listed of the emptied queue");
    expect(csq_free(&r->queue), CSQ_OK, "csq_free");
    references[r->index] = NULL;
}

bool iocsq_reference_is_idle(struct iocsq_reference *r) {
    iocsq_touch(&r->free_count, IOCSQ_CHANGES);
    iocsq_lock(&r->mutex);
    bool idle = r->free_count == IOCSQ_SLOTS;
    iocsq_unlock(&r->mutex);
    return idle;
}

/* ---- The list ---- */
uint32_t iocsq_reference_next(struct iocsq_reference *r, uint32_t after, uint32_t file) {
    iocsq_touch(r, IOCSQ_LOOKS);
    struct csq_irp next = { CSQ_ANY, 0 };
    iocsq_lock(&r->mutex);
    uint32_t code = csq_peek_next(&r->queue, after, file, &next);
    iocsq_unlock(&r->mutex);
    return code == CSQ_OK ? next.irp : CSQ_ANY;
}

uint32_t iocsq_reference_judge(struct iocsq_reference *r, uint32_t after, uint32_t file,
                               uint32_t answer, uint32_t *skipped) {
    iocsq_touch(r, IOCSQ_LOOKS);
    uint32_t verdict = CSQ_PEEK_SKIPS; /* of none, where `after` has gone meanwhile */
    iocsq_lock(&r->mutex);
    uint32_t code = csq_judge_peek(&r->queue, after, file, answer, &verdict, skipped);
    iocsq_unlock(&r->mutex);
    if (code != CSQ_NOT_LISTED) {
        expect(code, CSQ_OK, "csq_judge_peek");
    }
    return verdict;
}

uint32_t iocsq_reference_len(struct iocsq_reference *r) {
    iocsq_touch(r, IOCSQ_LOOKS);
    uint32_t len = 0;
    iocsq_lock(&r->mutex);
    expect(csq_len(&r->queue, &len), CSQ_OK, "csq_len");
    iocsq_unlock(&r->mutex);
    return len;
}

/* The listed IRPs that a cleanup may leave: those that came after it began, and those that are
 * cancelled. */
static size_t excused_in(const struct iocsq_reference *r, uint32_t *slots) {
    size_t count = 0;
    for (uint32_t slot = 0; slot < r->used_slots; slot++) {
        const struct iocsq_irp *i = r->by_slot[slot];
        if (i) {
            iocsq_touch(i, IOCSQ_LOOKS);
        }
        if (i && i->place == IOCSQ_LISTED && (i->late || i->irp.Cancel)) {
            slots[count++] = slot;
        }
    }
    return count;
}

struct iocsq_irp *iocsq_reference_left(struct iocsq_reference *r, uint32_t file) {
    iocsq_touch(r, IOCSQ_CHANGES);
    uint32_t excused[IOCSQ_SLOTS], left = CSQ_ANY;
    iocsq_lock(&r->mutex);
    size_t count = excused_in(r, excused);
    expect(csq_judge_cleanup(&r->queue, file, excused, count, &left), CSQ_OK, "csq_judge_cleanup");
    struct iocsq_irp *i = left == CSQ_ANY ? NULL : r->by_slot[left];
    iocsq_unlock(&r->mutex);
    return i;
}

struct iocsq_reference *iocsq_reference_of(const struct iocsq_irp *i) {
    iocsq_touch(i, IOCSQ_LOOKS);
    uint64_t stay = i->stay;
    return stay ? reference_of(stay) : NULL;
}

uint32_t iocsq_slot_in(const struct iocsq_reference *r, const struct iocsq_irp *i) {
    iocsq_touch(i, IOCSQ_LOOKS);
    uint64_t stay = i->stay;
    return stay && i->place == IOCSQ_LISTED && reference_of(stay) == r ? irp_of(stay).irp : CSQ_ANY;
}

/* ---- Stays ---- */
/* It is the same which slot an IRP has; only whether all are free is not. */
IOCSQ_ADDS static uint32_t take_slot(struct iocsq_reference *r, struct iocsq_irp *i) {
    iocsq_touch(&r->free_count, IOCSQ_LOOKS);
    if (r->free_count == 0) {
        iocsq_fail("more than %u IRPs in one queue", (unsigned)IOCSQ_SLOTS);
    }
    uint32_t slot = r->free_slots[--r->free_count];
    r->by_slot[slot] = i;
    r->used_slots = slot < r->used_slots ? r->used_slots : slot + 1;
    return slot;
}

IOCSQ_ADDS static void give_slot(struct iocsq_reference *r, uint32_t slot) {
    iocsq_touch(&r->free_count, IOCSQ_LOOKS);
    r->by_slot[slot] = NULL;
    r->free_slots[r->free_count++] = slot;
}

void iocsq_reference_join(struct iocsq_reference *r, struct iocsq_irp *i) {
    iocsq_touch(i, IOCSQ_CHANGES | IOCSQ_RELEASES);
    iocsq_lock(&r->mutex);
    uint32_t slot = take_slot(r, i);
    iocsq_begin_steps(i);
    iocsq_hand_end(i, false);
    i->stay = stay_at(r, slot, r->lives[slot]);
    iocsq_unlock(&r->mutex);
}

/* What an insert or a put-back did that was accepted, `named` being the pass in its steps. The
 * queue's mutex is held. */
static void settle(struct iocsq_irp *i, uint32_t pass, uint32_t named, const char *step,
                   uint32_t code) {
    iocsq_step(i, named, step);
    iocsq_step(i, named, "test");
    if (code == CSQ_CANCELLED) {
        iocsq_step(i, named, "disarm");
        i->pass = pass;
    }
    i->place = code == CSQ_OK ? IOCSQ_LISTED : IOCSQ_CANCELLED;
}

bool iocsq_reference_insert(struct iocsq_reference *r, struct iocsq_irp *i, uint32_t file,
                            bool first) {
    iocsq_touch(i, IOCSQ_CHANGES);
    iocsq_touch(r, IOCSQ_CHANGES);
    struct csq_irp context, irp = irp_of(i->stay);
    iocsq_lock(&r->mutex);
    uint32_t pass = lend_pass(r);
    uint32_t code = csq_insert(&r->queue, &r->passes[pass].pass, irp.irp, file, first, &context);
    return_pass(r, pass);
    if (code != CSQ_CANCELLED) {
        expect(code, CSQ_OK, "csq_insert");
    }
    r->files[irp.irp] = file;
    settle(i, pass, pass, "arm", code);
    iocsq_unlock(&r->mutex);
    return code == CSQ_OK;
}

bool iocsq_reference_goes_on(const struct iocsq_reference *r, const struct iocsq_irp *i,
                             uint32_t file) {
    uint64_t stay = i->stay;
    return stay && reference_of(stay) == r && r->files[irp_of(stay).irp] == file;
}

uint32_t iocsq_reference_put_back(struct iocsq_reference *r, struct iocsq_irp *i, bool first) {
    iocsq_touch(i, IOCSQ_CHANGES | IOCSQ_RELEASES);
    iocsq_touch(r, IOCSQ_CHANGES);
    struct csq_irp context;
    uint32_t code = CSQ_NOT_HELD;
    iocsq_lock(&r->mutex);
    uint32_t pass = i->pass;
    uint64_t stay = i->stay;
    if (stay && reference_of(stay) == r) {
        lend_this_pass(r, pass);
        code = csq_put_back(&r->queue, &r->passes[pass].pass, irp_of(stay), first, &context);
        return_pass(r, pass);
    }
    if (code == CSQ_OK || code == CSQ_CANCELLED) {
        settle(i, pass, iocsq_hand_pass(i), "rearm", code);
        iocsq_hand_end(i, true);
    } else {
        expect(code, CSQ_NOT_HELD, "csq_put_back");
    }
    iocsq_unlock(&r->mutex);
    return code;
}

uint32_t iocsq_reference_remove(struct iocsq_reference *r, struct iocsq_irp *i) {
    iocsq_touch(i, IOCSQ_CHANGES);
    iocsq_touch(r, IOCSQ_CHANGES);
    uint32_t verdict = CSQ_REMOVE_NOT_LISTED;
    iocsq_lock(&r->mutex);
    uint64_t stay = i->stay;
    if (!stay || reference_of(stay) != r) {
        iocsq_unlock(&r->mutex);
        return verdict;
    }
    uint32_t pass = lend_pass(r);
    uint32_t code = csq_judge_remove(&r->queue, &r->passes[pass].pass, irp_of(stay), &verdict);
    return_pass(r, pass);
    expect(code, CSQ_OK, "csq_judge_remove");
    if (i->place == IOCSQ_LISTED) {
        iocsq_step(i, pass, "disarm");
    }
    if (verdict == CSQ_REMOVE_AGREES) {
        i->pass = pass;
        i->place = IOCSQ_REMOVED;
    } else {
        iocsq_step(i, pass, "end");
    }
    iocsq_unlock(&r->mutex);
    return verdict;
}

bool iocsq_reference_mark(struct iocsq_irp *i, struct iocsq_claim *claim) {
    uint64_t stay;
    iocsq_touch(i, IOCSQ_SYNC);
    while ((stay = i->stay) != 0) {
        iocsq_touch(i, IOCSQ_SYNC);
        struct iocsq_reference *r = reference_of(stay);
        struct iocsq_claim made = { r, irp_of(stay), lend_pass(r) };
        uint32_t found = 0;
        uint32_t code = csq_mark_cancel(&r->passes[made.pass].pass, made.irp, &found);
        return_pass(r, made.pass);
        if (code == CSQ_OK) {
            iocsq_hand_mark(i, made.pass);
            *claim = made;
            return found != 0;
        }
        expect(code, CSQ_STALE, "csq_mark_cancel");
        if (stay == i->stay) {
            iocsq_yield(); /* the stay is ending: its word is cleared in a moment */
        }
    }
    return false;
}

void iocsq_reference_run_routine(const struct iocsq_claim *claim, struct iocsq_irp *i) {
    iocsq_touch(i, IOCSQ_CHANGES);
    iocsq_touch(claim->reference, IOCSQ_CHANGES);
    struct iocsq_reference *r = claim->reference;
    iocsq_lock(&r->mutex);
    lend_this_pass(r, claim->pass);
    uint32_t code = csq_cancel_routine(&r->queue, &r->passes[claim->pass].pass, claim->irp);
    return_pass(r, claim->pass);
    expect(code, CSQ_OK, "csq_cancel_routine");
    iocsq_step(i, claim->pass, "out");
    i->pass = claim->pass;
    i->place = IOCSQ_CANCELLED;
    iocsq_unlock(&r->mutex);
}

/* The next life of its slot begins, and the slot is free. The queue's mutex and the pass's are
 * held. */
static void free_slot(struct iocsq_reference *r, struct iocsq_irp *i, struct csq_irp irp,
                      uint32_t pass) {
    expect(csq_reuse(&r->queue, &r->passes[pass].pass, irp, &r->lives[irp.irp]), CSQ_OK,
           "csq_reuse");
    i->stay = 0;
    i->place = IOCSQ_HOME;
    give_slot(r, irp.irp);
}

/* What a driver does with an IRP that stays in a queue. */
struct use {
    const char *step;
    bool inserts; /* else it completes it with this status */
    NTSTATUS status;
};

static uint32_t judge_use(struct iocsq_reference *r, uint32_t pass, struct csq_irp irp,
                          struct use use) {
    struct csq_pass *by = &r->passes[pass].pass;
    uint32_t verdict = CSQ_USE_NOT_HELD;
    uint32_t code = use.inserts
                        ? csq_judge_insert(&r->queue, by, irp, &verdict)
                        : csq_judge_complete(&r->queue, by, irp, (uint32_t)use.status, &verdict);
    expect(code, CSQ_OK, use.inserts ? "csq_judge_insert" : "csq_judge_complete");
    return verdict;
}

/* Ends a stay, through the pass that holds the IRP, if that agrees. */
static uint32_t end_stay(struct iocsq_irp *i, struct use use) {
    iocsq_touch(i, IOCSQ_CHANGES);
    uint64_t stay = i->stay;
    uint32_t pass = i->place == IOCSQ_LISTED ? iocsq_pass_of_thread() : i->pass;
    if (!stay) {
        iocsq_step_again(i, use.step);
        return CSQ_USE_NOT_HELD;
    }
    struct iocsq_reference *r = reference_of(stay);
    iocsq_lock(&r->mutex);
    lend_this_pass(r, pass);
    if (!i->hand.armed || use.inserts) {
        iocsq_step(i, pass, use.step); /* of its own steps hand.c has noted it */
    }
    uint32_t verdict = judge_use(r, pass, irp_of(stay), use);
    if (verdict == CSQ_USE_AGREES) {
        free_slot(r, i, irp_of(stay), pass);
    }
    return_pass(r, pass);
    iocsq_unlock(&r->mutex);
    return verdict;
}

/* An insert of an IRP that stays in a queue, or stayed there: right or wrong, it sets the routine
 * again. */
static const struct use again = { "rearm", true, STATUS_SUCCESS };

uint32_t iocsq_reference_judge_again(struct iocsq_irp *i) {
    int place = i->place;
    bool may = place == IOCSQ_REMOVED || (place == IOCSQ_HOME && !i->stay);
    return may ? (uint32_t)CSQ_USE_AGREES : end_stay(i, again); /* which ends nothing: no pass holds
                                                                 * it by a removal */
}

bool iocsq_reference_leave(struct iocsq_irp *i) {
    return end_stay(i, again) == CSQ_USE_AGREES;
}

uint32_t iocsq_reference_complete(struct iocsq_irp *i, NTSTATUS status) {
    struct use completion = { "done", false, status };
    return end_stay(i, completion);
}
