/* The judge of schedules: a machine that allows just what the protocol allows (csq_replay.h)
 * replays the steps of an IRP, and refuses the first one that the protocol forbids. It needs no
 * race: a driver that doesn't look at Irp->Cancel after it has set its routine leaves the protocol
 * in every run. The machine is proved if the library is (iocsq_is_judge_proved). */
#include "verdicts.h"

/* What an installed library says of itself; null: these are archives of no installation. */
extern const char *csq_build(void) __attribute__((weak));

/* ---- The words of steps, by their kinds ---- */
static const char *const step_names[] = { "", "arm", "test", "disarm", "end", "flag",
                                          "take", "out", "done", "renew", "rearm" };

static uint32_t kind_of(const char *name) {
    uint32_t kind = CSQ_STEP_ARM;
    while (kind < CSQ_STEP_REARM && strcmp(step_names[kind], name) != 0) {
        kind++;
    }
    return kind;
}

static const char *const inside_names[] = { "no call", "an insert", "a removal", "a cancel",
                                            "a put-back" };

/* ---- The replay ---- */
static struct iocsq_verdict replay(struct csq_replay *by, const struct iocsq_schedule *s) {
    struct iocsq_verdict v = { 0, CSQ_OK, { 0, 0, { 0, 0, { 0, 0 }, 0 } } };
    for (uint32_t at = 0; at < s->count && v.refused == 0; at++) {
        struct csq_step step = { at + 1, s->steps[at].pass, kind_of(s->steps[at].name), { 0, 0 } };
        uint32_t found = 0;
        v.code = csq_replay_step(by, &step, &found, &v.refusal);
        v.refused = v.code == CSQ_OK ? 0 : at + 1;
    }
    return v;
}

struct iocsq_verdict iocsq_judge_steps(const struct iocsq_schedule *s) {
    struct csq_size size = { 1, 1, 1, s->passes, 0, CSQ_AUTO };
    struct csq_replay by = { NULL };
    if (csq_replay_new(&by, &size) != CSQ_OK) {
        iocsq_fail("no memory for the replay of a schedule");
    }
    struct iocsq_verdict v = replay(&by, s);
    csq_replay_free(&by);
    return v;
}

bool iocsq_is_judge_proved(void) {
    return csq_build && strstr(csq_build(), "proved=yes");
}

/* ---- In a report ---- */
/* What a driver does that leads to such a refusal; null: it isn't known. */
static const char *fault_of(const struct iocsq_verdict *v, const char *step) {
    const struct csq_inside *inside = &v->refusal.inside;
    if (v->code == CSQ_NOT_NEXT && inside->next == CSQ_STEP_TEST) {
        return "doesn't look at Irp->Cancel after it has set the cancel routine: a cancel that "
               "came just before found no routine, and is lost";
    }
    if (v->code == CSQ_NOT_NEXT && strcmp(step, "test") == 0) {
        return "looks at Irp->Cancel before it sets the cancel routine, without the cancel spin "
               "lock: a cancel that comes between finds no routine, and is lost";
    }
    if (v->code == CSQ_NOT_NEXT && inside->next == CSQ_STEP_DISARM) {
        return "found Irp->Cancel set, and doesn't take its cancel routine back by "
               "IoSetCancelRoutine(Irp, NULL): that alone decides who completes the IRP";
    }
    return NULL; /* of who completes what it doesn't have, hand.c knows more */
}

/* What a pass is inside of, and what it may do. */
static void write_inside(char *text, size_t size, uint32_t pass, const struct csq_inside *inside) {
    if (inside->call == CSQ_INSIDE_NONE) {
        snprintf(text, size, "p%u is inside no call", pass);
    } else {
        snprintf(text, size, "p%u is inside %s since step %llu, and its next step is %s", pass,
                 inside_names[inside->call], (unsigned long long)inside->since,
                 step_names[inside->next]);
    }
}

/* The cause of the refusal, as csqsim says it. */
static void write_cause(char *text, size_t size, const struct iocsq_verdict *v) {
    uint32_t pass = v->refusal.pass;
    switch (v->code) {
    case CSQ_NOT_NEXT: write_inside(text, size, pass, &v->refusal.inside); break;
    case CSQ_LOCK_HELD: snprintf(text, size, "p%u has the lock", pass); break;
    case CSQ_NOT_HOME: snprintf(text, size, "it was listed before"); break;
    case CSQ_NOT_LISTED: snprintf(text, size, "it isn't listed"); break;
    case CSQ_NOT_OWED: snprintf(text, size, "no cancel of p%u took its routine", pass); break;
    case CSQ_NOT_HELD: snprintf(text, size, "p%u doesn't have it", pass); break;
    default: snprintf(text, size, "code %u", v->code);
    }
}

/* If it is known what the driver does wrong, that comes first, and what the machine says second. */
void iocsq_report_refused(const struct iocsq_irp *i, const struct iocsq_schedule *s,
                          const struct iocsq_verdict *v) {
    const struct iocsq_step *step = &s->steps[v->refused - 1];
    const char *fault = fault_of(v, step->name);
    char cause[96], refusal[192], hint[256];
    write_cause(cause, sizeof cause, v);
    snprintf(refusal, sizeof refusal, "%u, p%u %s: %s (by %s)", v->refused, step->pass, step->name,
             cause,
             iocsq_is_judge_proved() ? "the proved machine" : "a machine that isn't proved");
    if (fault) {
        snprintf(hint, sizeof hint, "  Its cancel path breaks the protocol in step %s.", refusal);
        iocsq_set_hint(hint);
        iocsq_own.set_at = i->hand.set_at;
        iocsq_disagree(i, "irp %u: the driver %s", i->index, fault);
    }
    iocsq_disagree(i, "the cancel path of irp %u breaks the protocol in step %s", i->index,
                   refusal);
}
