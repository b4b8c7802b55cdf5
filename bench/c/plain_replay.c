/* A plain C machine of the same header as the proved one, written from the header's comments and
 * unproved: for installations without the kit, and to compare with that one. */
#include "csq_replay.h"

#include <stdbool.h>
#include <stdlib.h>

struct irp {
    uint32_t life;
    uint32_t place;
    uint32_t pass;   /* who owes it, holds it or completed it */
    uint32_t status; /* what it is due, or was completed with */
    bool flag;
};

struct replay {
    uint32_t irps;
    uint32_t passes;
    uint32_t first_life;
    uint32_t lock; /* the pass that has it, or 0 */
    struct irp *irp;
    struct csq_inside *inside; /* by the pass's number: the first one is nobody's */
};

/* ---- A replay's beginning and end ---- */

static void free_replay(struct replay *it) {
    free(it->irp);
    free(it->inside);
    free(it);
}

static bool is_in_range(uint32_t number, uint32_t most) {
    return number >= 1 && number <= most;
}

static struct replay *made(const struct csq_size *size) {
    struct replay *it = calloc(1, sizeof *it);
    if (!it) {
        return NULL;
    }
    it->irps = size->irps;
    it->passes = size->passes;
    it->first_life = size->first_life;
    it->irp = calloc(it->irps, sizeof *it->irp);
    it->inside = calloc((size_t)it->passes + 1, sizeof *it->inside);
    if (!it->irp || !it->inside) {
        free_replay(it);
        return NULL;
    }
    for (uint32_t irp = 0; irp < it->irps; irp++) {
        it->irp[irp].life = it->first_life;
    }
    return it;
}

uint32_t csq_replay_new(struct csq_replay *replay, const struct csq_size *size) {
    if (replay->at) {
        return CSQ_NOT_EMPTY;
    }
    if (!is_in_range(size->irps, CSQ_MOST_IRPS) || !is_in_range(size->passes, CSQ_MOST_PASSES) ||
        size->first_life > CSQ_LAST_LIFE) {
        return CSQ_BAD_SIZE;
    }
    replay->at = made(size);
    return replay->at ? CSQ_OK : CSQ_NO_MEMORY;
}

uint32_t csq_replay_free(struct csq_replay *replay) {
    if (!replay->at) {
        return CSQ_EMPTY_HANDLE;
    }
    free_replay(replay->at);
    replay->at = NULL;
    return CSQ_OK;
}

/* ---- Why a step may not come next ---- */

static bool needs_lock(uint32_t kind) {
    return kind != CSQ_STEP_FLAG && kind != CSQ_STEP_TAKE && kind != CSQ_STEP_DONE;
}

static bool is_next(const struct csq_inside *inside, const struct csq_step *step) {
    switch (inside->call) {
    case CSQ_INSIDE_NONE: return step->kind != CSQ_STEP_TEST && step->kind != CSQ_STEP_TAKE;
    case CSQ_INSIDE_REMOVAL: return step->kind == CSQ_STEP_DISARM || step->kind == CSQ_STEP_END;
    default:
        return step->kind == inside->next && step->irp.irp == inside->irp.irp &&
               step->irp.life == inside->irp.life;
    }
}

/* The present life stands in this place, by this pass. */
static bool is_with(const struct irp *irp, const struct csq_step *step, uint32_t place) {
    return irp->life == step->irp.life && irp->place == place && irp->pass == step->pass;
}

static uint32_t refusal_of_renew(const struct irp *irp, uint32_t life) {
    if (irp->place != CSQ_PLACE_COMPLETED) {
        return CSQ_NOT_COMPLETED;
    }
    return life < CSQ_LAST_LIFE ? CSQ_OK : CSQ_LIVES_SPENT;
}

/* By what its IRP is, and where. */
static uint32_t refusal_by_irp(const struct replay *it, const struct csq_step *step) {
    const struct irp *irp = &it->irp[step->kind == CSQ_STEP_END ? 0 : step->irp.irp];
    const uint32_t life = step->irp.life;
    const bool is_present = irp->life == life;
    const bool is_listed = irp->place == CSQ_PLACE_LISTED || irp->place == CSQ_PLACE_OWED;
    const bool was_armed = is_present ? irp->place != CSQ_PLACE_HOME
                                      : it->first_life <= life && life < irp->life;
    const bool is_held = is_with(irp, step, CSQ_PLACE_HELD);
    const uint32_t stale = is_present ? CSQ_OK : CSQ_STALE;
    switch (step->kind) {
    case CSQ_STEP_ARM: return was_armed ? (uint32_t)CSQ_NOT_HOME : stale;
    case CSQ_STEP_FLAG: return stale;
    case CSQ_STEP_DISARM: return is_present && is_listed ? CSQ_OK : CSQ_NOT_LISTED;
    case CSQ_STEP_OUT: return is_with(irp, step, CSQ_PLACE_OWED) ? CSQ_OK : CSQ_NOT_OWED;
    case CSQ_STEP_DONE: return is_held ? CSQ_OK : CSQ_NOT_HELD;
    case CSQ_STEP_REARM:
        return is_held && irp->status == CSQ_STATUS_SUCCESS ? CSQ_OK : CSQ_NOT_HELD;
    case CSQ_STEP_RENEW: return is_present ? refusal_of_renew(irp, life) : stale;
    default: return CSQ_OK;
    }
}

static uint32_t refusal(const struct replay *it, const struct csq_step *step) {
    if (!is_in_range(step->kind, CSQ_STEP_REARM)) {
        return CSQ_BAD_SIZE;
    }
    if (step->kind != CSQ_STEP_END && step->irp.irp >= it->irps) {
        return CSQ_UNKNOWN_IRP;
    }
    if (!is_in_range(step->pass, it->passes)) {
        return CSQ_UNKNOWN_PASS;
    }
    if (needs_lock(step->kind) && it->lock && it->lock != step->pass) {
        return CSQ_LOCK_HELD;
    }
    return is_next(&it->inside[step->pass], step) ? refusal_by_irp(it, step) : CSQ_NOT_NEXT;
}

static struct csq_refusal explained(const struct replay *it, const struct csq_step *step,
                                    uint32_t code) {
    struct csq_refusal about = { step->pass, 0, { 0, 0, { 0, 0 }, 0 } };
    if (code == CSQ_LOCK_HELD) {
        about.pass = it->lock;
    }
    if (code == CSQ_STALE) {
        about.life = it->irp[step->irp.irp].life;
    }
    if (is_in_range(about.pass, it->passes)) {
        about.inside = it->inside[about.pass];
    }
    return about;
}

/* ---- A step ---- */

static uint32_t found_by(const struct irp *irp, const struct csq_step *step) {
    switch (step->kind) {
    case CSQ_STEP_ARM:
    case CSQ_STEP_DISARM:
    case CSQ_STEP_TAKE:
    case CSQ_STEP_REARM: return irp->life == step->irp.life && irp->place == CSQ_PLACE_LISTED;
    case CSQ_STEP_TEST:
    case CSQ_STEP_FLAG: return irp->flag;
    default: return 0;
    }
}

static bool is_insert(const struct csq_inside *inside) {
    return inside->call == CSQ_INSIDE_INSERT || inside->call == CSQ_INSIDE_PUT_BACK;
}

static void move(struct irp *irp, const struct csq_step *step, uint32_t place, uint32_t status) {
    irp->place = place;
    irp->pass = step->pass;
    irp->status = status;
}

/* What the step makes of its IRP. */
static void move_irp(struct irp *irp, const struct csq_step *step, uint32_t found,
                     bool in_insert) {
    switch (step->kind) {
    case CSQ_STEP_ARM:
    case CSQ_STEP_REARM: move(irp, step, CSQ_PLACE_LISTED, 0); break;
    case CSQ_STEP_DISARM:
        if (found) {
            move(irp, step, CSQ_PLACE_HELD, in_insert ? CSQ_STATUS_CANCELLED : CSQ_STATUS_SUCCESS);
        }
        break;
    case CSQ_STEP_FLAG: irp->flag = true; break;
    case CSQ_STEP_TAKE:
        if (found) {
            move(irp, step, CSQ_PLACE_OWED, 0);
        }
        break;
    case CSQ_STEP_OUT: move(irp, step, CSQ_PLACE_HELD, CSQ_STATUS_CANCELLED); break;
    case CSQ_STEP_DONE: move(irp, step, CSQ_PLACE_COMPLETED, irp->status); break;
    case CSQ_STEP_RENEW: *irp = (struct irp){ irp->life + 1, CSQ_PLACE_HOME, 0, 0, false }; break;
    default: break;
    }
}

/* What the step leads its pass to. */
static struct csq_inside inside_after(const struct csq_inside *before, const struct csq_step *step,
                                      uint32_t found) {
    const uint64_t since = before->call == CSQ_INSIDE_NONE ? step->number : before->since;
    const struct csq_inside none = { 0, 0, { 0, 0 }, 0 };
    struct csq_inside after = { before->call, CSQ_STEP_TEST, step->irp, since };
    switch (step->kind) {
    case CSQ_STEP_ARM: after.call = CSQ_INSIDE_INSERT; return after;
    case CSQ_STEP_REARM: after.call = CSQ_INSIDE_PUT_BACK; return after;
    case CSQ_STEP_TEST: after.next = CSQ_STEP_DISARM; return found ? after : none;
    case CSQ_STEP_FLAG:
        after.call = CSQ_INSIDE_CANCEL;
        after.next = CSQ_STEP_TAKE;
        return after;
    case CSQ_STEP_DISARM:
        after = (struct csq_inside){ CSQ_INSIDE_REMOVAL, CSQ_STEP_DISARM, { 0, 0 }, since };
        return found || is_insert(before) ? none : after;
    default: return none;
    }
}

static uint32_t make(struct replay *it, const struct csq_step *step) {
    struct irp *irp = &it->irp[step->kind == CSQ_STEP_END ? 0 : step->irp.irp];
    struct csq_inside *inside = &it->inside[step->pass];
    const uint32_t found = found_by(irp, step);
    move_irp(irp, step, found, is_insert(inside));
    *inside = inside_after(inside, step, found);
    if (is_insert(inside) || inside->call == CSQ_INSIDE_REMOVAL) {
        it->lock = step->pass;
    } else if (it->lock == step->pass) {
        it->lock = 0;
    }
    return found;
}

uint32_t csq_replay_step(struct csq_replay *replay, const struct csq_step *step, uint32_t *found,
                         struct csq_refusal *about) {
    struct replay *it = replay->at;
    if (!it) {
        return CSQ_EMPTY_HANDLE;
    }
    const uint32_t code = refusal(it, step);
    if (code == CSQ_OK) {
        *found = make(it, step);
    } else if (code != CSQ_BAD_SIZE) {
        *about = explained(it, step, code);
    }
    return code;
}

/* ---- What the steps led to ---- */

static bool is_free(const struct replay *it) {
    for (uint32_t irp = 0; irp < it->irps; irp++) {
        if (it->irp[irp].place == CSQ_PLACE_OWED || it->irp[irp].place == CSQ_PLACE_HELD) {
            return false;
        }
    }
    return true;
}

uint32_t csq_replay_rest(const struct csq_replay *replay) {
    const struct replay *it = replay->at;
    if (!it) {
        return CSQ_EMPTY_HANDLE;
    }
    for (uint32_t pass = 1; pass <= it->passes; pass++) {
        if (it->inside[pass].call != CSQ_INSIDE_NONE) {
            return CSQ_HOLDING;
        }
    }
    return is_free(it) ? CSQ_OK : CSQ_HOLDING;
}

uint32_t csq_replay_irp(const struct csq_replay *replay, uint32_t irp, struct csq_placed *placed) {
    const struct replay *it = replay->at;
    if (!it) {
        return CSQ_EMPTY_HANDLE;
    }
    if (irp >= it->irps) {
        return CSQ_UNKNOWN_IRP;
    }
    const struct irp *of = &it->irp[irp];
    const bool is_anyones = of->place != CSQ_PLACE_HOME && of->place != CSQ_PLACE_LISTED;
    placed->life = of->life;
    placed->place = of->place;
    placed->pass = is_anyones ? of->pass : 0;
    placed->status = of->place == CSQ_PLACE_COMPLETED ? of->status : 0;
    placed->cancelled = of->flag;
    return CSQ_OK;
}
