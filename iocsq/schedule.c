/* An IRP's way as a schedule of csqsim: the atomic steps on the one IRP, which is named 0 there,
 * each by its pass. Only in turns they are kept: where threads run freely, the order of two steps
 * of different threads isn't known. */
#include "reference.h"

enum { CSQSIM_PASSES = 4 }; /* unless it is set otherwise */

void iocsq_begin_steps(struct iocsq_irp *i) {
    if (iocsq_in_turns()) {
        i->step_count = 0;
        i->put_backs_left_out = 0;
    }
}

static bool is_step(const struct iocsq_step *step, uint32_t pass, const char *name) {
    return step->pass == pass && strcmp(step->name, name) == 0;
}

void iocsq_take_back_steps(struct iocsq_irp *i, uint32_t from, uint32_t to) {
    memmove(&i->steps[from], &i->steps[to], (i->step_count - to) * sizeof *i->steps);
    i->step_count -= to - from;
}

/* Makes room where an IRP is put back often: leaves out the first removal that was followed by a
 * put-back at once. No cancel stands between them, so the IRP is listed before these three steps as
 * it is after them. */
static void leave_out_put_back(struct iocsq_irp *i) {
    for (uint32_t at = 0; at + 2 < IOCSQ_STEPS; at++) {
        const struct iocsq_step *step = &i->steps[at];
        if (is_step(step, step->pass, "disarm") && is_step(step + 1, step->pass, "rearm") &&
            is_step(step + 2, step->pass, "test")) {
            iocsq_take_back_steps(i, at, at + 3);
            i->put_backs_left_out++;
            i->hand.looked = 0; /* with doubtful_at a number of steps, which is another now */
            i->hand.doubtful = 0;
            if (i->hand.released) {
                i->hand.left_out = "it was put back too often";
            }
            return;
        }
    }
}

void iocsq_step_before(struct iocsq_irp *i, uint32_t at, uint32_t pass, const char *name) {
    iocsq_touch(i, IOCSQ_CHANGES); /* two orders of its steps are two schedules */
    struct iocsq_step step = { name, pass, iocsq_own.during, iocsq_thread() };
    if (i->step_count < IOCSQ_STEPS) {
        memmove(&i->steps[at + 1], &i->steps[at], (i->step_count - at) * sizeof step);
        i->steps[at] = step;
    }
    i->step_count++;
}

void iocsq_step(struct iocsq_irp *i, uint32_t pass, const char *name) {
    if (!iocsq_in_turns()) {
        return;
    }
    if (i->step_count == IOCSQ_STEPS) {
        leave_out_put_back(i);
    }
    iocsq_step_before(i, i->step_count, pass, name);
}

/* Whether a cancel routine was set. Otherwise the steps are those of cancels alone. */
static bool has_begun(const struct iocsq_irp *i) {
    for (uint32_t at = 0; at < i->step_count && at < IOCSQ_STEPS; at++) {
        if (strcmp(i->steps[at].name, "arm") == 0 || strcmp(i->steps[at].name, "rearm") == 0) {
            return true;
        }
    }
    return false;
}

void iocsq_step_again(struct iocsq_irp *i, const char *name) {
    if (has_begun(i) && !i->hand.armed) {
        iocsq_step(i, iocsq_pass_of_thread(), name);
    }
}

/* ---- The passes are numbered as they come, since csqsim has few ---- */
struct names {
    uint32_t count;
    uint32_t passes[IOCSQ_STEPS];
};

static uint32_t name_of_pass(struct names *names, uint32_t pass) {
    for (uint32_t at = 0; at < names->count; at++) {
        if (names->passes[at] == pass) {
            return at + 1;
        }
    }
    names->passes[names->count++] = pass;
    return names->count;
}

/* Why an IRP's steps are no schedule; null: they are one, or there are none. */
static const char *cause_of(const struct iocsq_irp *i) {
    if (i->hand.armed && !iocsq_sees_accesses()) {
        return "the driver isn't compiled with -fsanitize=thread alone, by which iocsq sees where "
               "it reads Irp->Cancel";
    }
    if (i->hand.left_out) {
        return i->hand.left_out;
    }
    return i->step_count > IOCSQ_STEPS ? "it has more steps than iocsq keeps" : NULL;
}

bool iocsq_schedule_of(const struct iocsq_irp *i, struct iocsq_schedule *made, const char **why) {
    struct names names = { 0, { 0 } };
    *why = has_begun(i) ? cause_of(i) : NULL;
    if (!has_begun(i) || *why) {
        return false;
    }
    made->count = i->step_count;
    made->put_backs_left_out = i->put_backs_left_out;
    for (uint32_t at = 0; at < made->count; at++) {
        made->steps[at] = i->steps[at];
        made->steps[at].pass = name_of_pass(&names, i->steps[at].pass);
    }
    made->passes = names.count;
    return true;
}

const char *iocsq_step_irp(const struct iocsq_step *step) {
    return strcmp(step->name, "end") == 0 ? "" : " 0"; /* a removal's end names none */
}

/* ---- In a report ---- */
static void show_heading(const struct iocsq_schedule *s) {
    fprintf(stderr, "  As a schedule, for csqsim");
    if (s->passes > CSQSIM_PASSES) {
        fprintf(stderr, " with --passes %u", s->passes);
    }
    if (s->put_backs_left_out > 0) {
        fprintf(stderr, ", without %u put-backs before", s->put_backs_left_out);
    }
    fprintf(stderr, ":\n");
}

/* Its first step of which is known what its thread was in; null: of none it is. */
static const struct iocsq_step *first_of_pass(const struct iocsq_schedule *s, uint32_t pass) {
    for (uint32_t at = 0; at < s->count; at++) {
        if (s->steps[at].pass == pass && s->steps[at].during) {
            return &s->steps[at];
        }
    }
    return NULL;
}

/* Which thread each pass is, and what that is in: csqsim draw writes it over the pass's column. */
static void show_passes(const struct iocsq_schedule *s) {
    for (uint32_t pass = 1; pass <= s->passes; pass++) {
        const struct iocsq_step *step = first_of_pass(s, pass);
        if (step) {
            fprintf(stderr, "    # p%u: t%u, in %s\n", pass, step->thread, step->during);
        }
    }
}

void iocsq_show_schedule(const struct iocsq_irp *i) {
    struct iocsq_schedule s;
    const char *why;
    if (!iocsq_schedule_of(i, &s, &why)) {
        if (i->hand.armed && why) {
            fprintf(stderr, "  No schedule: %s.\n", why);
        }
        return;
    }
    show_heading(&s);
    if (i->hand.armed) {
        show_passes(&s);
    }
    for (uint32_t at = 0; at < s.count; at++) {
        fprintf(stderr, "    p%u %s%s\n", s.steps[at].pass, s.steps[at].name,
                iocsq_step_irp(&s.steps[at]));
    }
}
