/* The different schedules of a run's IRPs that had a cancel routine of the driver's own: what the
 * queue beside an IO_CSQ decides at once, is decided of these by a replay of their steps. Each new
 * one is replayed, and ends the run with a report if one of its steps is refused; or, if
 * IOCSQ_SCHEDULES names a file, it is written there with the verdict, which iocsq/judge compares
 * with csqsim's. */
#include "verdicts.h"

#include <stdlib.h>

enum { SCHEDULES = 1024, LINE = 32 * IOCSQ_STEPS };

/* In memory of its own: the bounded mode puts the program's variables back before each run, and
 * this is of all runs. */
static struct noted {
    struct iocsq_schedules_noted counts;
    uint64_t hashes[SCHEDULES];
} *noted;

__attribute__((constructor)) static void allocate_schedules(void) {
    noted = calloc(1, sizeof *noted);
    if (!noted) {
        abort();
    }
}

struct iocsq_schedules_noted iocsq_schedules_noted(void) {
    return noted->counts;
}

/* ---- The file ---- */
static const char *file_name(void) {
    return getenv("IOCSQ_SCHEDULES");
}

static void write_line(const char *line, size_t length) {
    const char *path = file_name();
    if (!path) {
        return;
    }
    FILE *file = fopen(path, "a");
    if (!file || fwrite(line, 1, length, file) != length || fclose(file) != 0) {
        iocsq_fail("IOCSQ_SCHEDULES: %s can't be written", path);
    }
}

/* The steps on one line, as they are compared too. Returns its length. */
static size_t write_steps(char line[LINE], const struct iocsq_schedule *s) {
    size_t used = 0;
    for (uint32_t at = 0; at < s->count; at++) {
        const struct iocsq_step *step = &s->steps[at];
        used += (size_t)snprintf(line + used, LINE - used, "p%u %s%s%c", step->pass, step->name,
                                 iocsq_step_irp(step), at + 1 < s->count ? ';' : '\n');
    }
    return used;
}

static void write_left_out(const char *why) {
    char line[LINE];
    int length = snprintf(line, sizeof line, "# left out: %s\n", why);
    write_line(line, (size_t)length);
}

/* ---- Which are there ---- */
static uint64_t hash_of(const char *line, size_t length) {
    uint64_t hash = 14695981039346656037u; /* FNV-1a */
    for (size_t at = 0; at < length; at++) {
        hash = (hash ^ (unsigned char)line[at]) * 1099511628211u;
    }
    return hash;
}

IOCSQ_COMMUTES static bool is_noted(uint64_t hash) {
    for (uint64_t at = 0; at < noted->counts.different; at++) {
        if (noted->hashes[at] == hash) {
            return true;
        }
    }
    return false;
}

/* A schedule that none before equals, and of which the replay says this. */
IOCSQ_COMMUTES static void keep(const struct iocsq_verdict *v, uint64_t hash, const char *steps) {
    char line[LINE + 32];
    if (noted->counts.different == SCHEDULES) {
        iocsq_fail("more than %u different schedules", (unsigned)SCHEDULES);
    }
    noted->hashes[noted->counts.different++] = hash;
    write_line(line, (size_t)snprintf(line, sizeof line, "%u: %s", v->refused, steps));
}

static bool is_cancelling(const struct iocsq_schedule *s, uint32_t pass) {
    bool cancels = false;
    for (uint32_t at = 0; at < s->count; at++) {
        if (s->steps[at].pass == pass) {
            cancels = strcmp(s->steps[at].name, "flag") == 0;
        }
    }
    return cancels;
}

/* A cancel that is under way as the IRP is completed finds no routine any more. Whether there is
 * room for that step. */
static bool end_cancels(struct iocsq_schedule *s) {
    for (uint32_t pass = 1; pass <= s->passes; pass++) {
        if (is_cancelling(s, pass) && s->count < IOCSQ_STEPS) {
            struct iocsq_step take = { "take", pass, "IoCancelIrp", 0 };
            s->steps[s->count++] = take;
        } else if (is_cancelling(s, pass)) {
            return false;
        }
    }
    return true;
}

static bool can_be_judged(const struct iocsq_irp *i, struct iocsq_schedule *s, const char **why) {
    if (!iocsq_schedule_of(i, s, why)) {
        return false;
    }
    *why = "it has more steps than iocsq keeps";
    return i->place != IOCSQ_DONE || end_cancels(s);
}

/* Why a refusal says nothing of the driver; null: it does. The lock is the protocol's, and the
 * driver need not have one. A thread that finds the flag set, after it has set the routine, may
 * leave it to another thread to take the routine back, or may call IoCancelIrp, as long as it
 * doesn't complete the IRP. */
static const char *excuse_of(const struct iocsq_schedule *s, const struct iocsq_verdict *v) {
    if (v->code == CSQ_LOCK_HELD) {
        return "another thread's step comes before its insert is over, and in a schedule the "
               "insert has the lock until then";
    }
    bool looked = v->code == CSQ_NOT_NEXT && v->refusal.inside.next == CSQ_STEP_DISARM;
    if (looked && strcmp(s->steps[v->refused - 1].name, "done") != 0) {
        return "its thread finds Irp->Cancel set, and doesn't take the cancel routine back itself";
    }
    return NULL;
}

IOCSQ_COMMUTES static void leave_out(const char *why) {
    noted->counts.left_out++;
    write_left_out(why);
}

IOCSQ_COMMUTES static void count_irp(void) {
    noted->counts.irps++;
}

/* Whether the IRP's steps are a new schedule; then what came of its replay. */
static bool note(const struct iocsq_irp *i, struct iocsq_schedule *s, struct iocsq_verdict *v) {
    const char *why;
    char line[LINE];
    if (!i->hand.armed || !iocsq_in_turns()) {
        return false;
    }
    if (!can_be_judged(i, s, &why)) {
        leave_out(why);
        return false;
    }
    uint64_t hash = hash_of(line, write_steps(line, s));
    bool is_new = !is_noted(hash);
    if (is_new) {
        *v = iocsq_judge_steps(s);
    }
    why = is_new ? excuse_of(s, v) : NULL;
    if (why) {
        leave_out(why);
        return false;
    }
    count_irp();
    if (is_new) {
        keep(v, hash, line);
    }
    return is_new;
}

void iocsq_judge_schedule(const struct iocsq_irp *i) {
    struct iocsq_schedule s;
    struct iocsq_verdict v;
    if (note(i, &s, &v) && v.refused > 0 && !file_name()) {
        iocsq_report_refused(i, &s, &v);
    }
}

void iocsq_note_schedule(const struct iocsq_irp *i) {
    struct iocsq_schedule s;
    struct iocsq_verdict v;
    note(i, &s, &v);
}
