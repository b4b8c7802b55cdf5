/* Replays a schedule from standard input through csq_replay.h, and answers it as csqsim schedule
 * does; or draws a schedule, of so many random steps that are accepted, and of one that may be
 * refused. replay_beside_csqsim.py compares the answers.
 *
 *     replay_schedule < SCHEDULE
 *     replay_schedule SEED STEPS
 */
#include "replay_words.h"

#include <stdlib.h>

/* As many as csqsim has unless it is told; and as many as are drawn. */
enum { IRPS = 8, PASSES = 4, DRAWN_IRPS = 3, DRAWN_PASSES = 3 };

static struct csq_replay new_replay(void) {
    const struct csq_size size = { IRPS, 1, 1, PASSES, 0, CSQ_VECTOR };
    struct csq_replay replay = { NULL };
    if (csq_replay_new(&replay, &size) != CSQ_OK) {
        exit(70);
    }
    return replay;
}

/* ---- An answer ---- */

/* csqsim's name of a cause. */
static const char *cause_of(uint32_t code) {
    switch (code) {
    case CSQ_UNKNOWN_IRP: return "UnknownIrp";
    case CSQ_UNKNOWN_PASS: return "UnknownPass";
    case CSQ_LOCK_HELD: return "LockHeld p";
    case CSQ_NOT_NEXT: return "NotNext";
    case CSQ_NOT_HOME: return "NotHome";
    case CSQ_NOT_LISTED: return "NotListed";
    case CSQ_NOT_OWED: return "NotOwed";
    case CSQ_NOT_HELD: return "NotHeld";
    case CSQ_STALE: return "Stale ";
    case CSQ_NOT_COMPLETED: return "NotCompleted";
    case CSQ_LIVES_SPENT: return "LivesSpent";
    default: return "?";
    }
}

static const char *const calls[] = { "", "an insert", "a removal", "a cancel", "a put-back" };

static void print_next(const struct csq_inside *inside) {
    if (inside->call == CSQ_INSIDE_REMOVAL) {
        fputs("; its next step is a disarm or an end\n", stderr);
        return;
    }
    fprintf(stderr, "; its next step is %s ", kind_words[inside->next]);
    print_name(stderr, inside->irp);
    fputc('\n', stderr);
}

/* What csqsim writes to standard error of a step that comes at the wrong time. */
static void explain(const struct csq_step *step, uint32_t code, const struct csq_refusal *refusal) {
    const struct csq_inside *inside = &refusal->inside;
    if (code != CSQ_LOCK_HELD && code != CSQ_NOT_NEXT) {
        return;
    }
    print_step(stderr, step);
    fprintf(stderr, " is refused: p%" PRIu32, refusal->pass);
    if (inside->call == CSQ_INSIDE_NONE) {
        fputs(" is inside no call: an insert begins with arm, a put-back with rearm, a cancel with "
              "flag\n",
              stderr);
        return;
    }
    if (code == CSQ_LOCK_HELD) {
        fprintf(stderr, " has had the lock since line %" PRIu64 ", inside %s", inside->since,
                calls[inside->call]);
    } else {
        fprintf(stderr, " has been inside %s since line %" PRIu64, calls[inside->call],
                inside->since);
    }
    print_next(inside);
}

/* What the answer ends with, if each step was accepted. */
static void close_answer(const struct csq_replay *replay) {
    static const char *const places[] = { "home", "listed", "listed", "held by p", "completed " };
    struct csq_placed it = { 0, 0, 0, 0, 0 };
    for (uint32_t irp = 0; csq_replay_irp(replay, irp, &it) == CSQ_OK; irp++) {
        const struct csq_irp name = { irp, it.life };
        if (it.place == CSQ_PLACE_HOME && !it.life && !it.cancelled) {
            continue;
        }
        fputs("irp ", stdout);
        print_name(stdout, name);
        printf(" %s", places[it.place]);
        if (it.place == CSQ_PLACE_COMPLETED) {
            printf("%08" PRIX32 " by p", it.status);
        }
        if (it.place >= CSQ_PLACE_HELD) {
            printf("%" PRIu32, it.pass);
        }
        printf(" cancel %" PRIu32 "\n", it.cancelled);
    }
    puts(csq_replay_rest(replay) == CSQ_OK ? "rest yes" : "rest no");
}

/* Answers a line, and returns the code of its step. */
static uint32_t answer_line(struct csq_replay *replay, char *line, uint64_t number) {
    const struct csq_step step = step_of(line, number);
    struct csq_refusal refusal;
    uint32_t found;
    const uint32_t code = csq_replay_step(replay, &step, &found, &refusal);
    if (code == CSQ_OK) {
        line[strcspn(line, "\n")] = 0;
        printf("%s found %" PRIu32 "\n", line, found);
        return code;
    }
    printf("line %" PRIu64 " refused %s", number, cause_of(code));
    if (code == CSQ_LOCK_HELD || code == CSQ_STALE) {
        printf("%" PRIu32, code == CSQ_STALE ? refusal.life : refusal.pass);
    }
    putchar('\n');
    explain(&step, code, &refusal);
    return code;
}

static int answer(void) {
    struct csq_replay replay = new_replay();
    uint32_t code = CSQ_OK;
    uint64_t number = 0;
    char line[80];
    while (code == CSQ_OK && fgets(line, sizeof line, stdin)) {
        number++;
        if (*line != '#' && *line != '\n') {
            code = answer_line(&replay, line, number);
        }
    }
    if (code == CSQ_OK) {
        close_answer(&replay);
    }
    csq_replay_free(&replay);
    return code == CSQ_OK ? 0 : 2;
}

/* ---- A schedule ---- */

static uint64_t drawn;

static uint32_t draw(uint32_t below) {
    drawn = drawn * UINT64_C(6364136223846793005) + UINT64_C(1442695040888963407);
    return (uint32_t)(drawn >> 33) % below;
}

/* Mostly of the IRP's present life. */
static struct csq_step draw_step(const struct csq_replay *replay) {
    struct csq_step step = { 0, 1 + draw(DRAWN_PASSES), 1 + draw(CSQ_STEP_REARM), { 0, 0 } };
    struct csq_placed it = { 0, 0, 0, 0, 0 };
    step.irp.irp = draw(DRAWN_IRPS);
    csq_replay_irp(replay, step.irp.irp, &it);
    step.irp.life = draw(16) ? it.life : draw(it.life + 2);
    return step;
}

static void print_line(const struct csq_step *step) {
    print_step(stdout, step);
    putchar('\n');
}

static int draw_schedule(uint32_t steps) {
    struct csq_replay replay = new_replay();
    struct csq_refusal refusal;
    struct csq_step step;
    uint32_t found;
    while (steps > 0) {
        step = draw_step(&replay);
        if (csq_replay_step(&replay, &step, &found, &refusal) == CSQ_OK) {
            print_line(&step);
            steps--;
        }
    }
    step = draw_step(&replay);
    if (draw(16) == 0) {
        step.irp.irp = IRPS - draw(2);
        step.pass = draw(2) * (PASSES + 1);
    }
    print_line(&step);
    csq_replay_free(&replay);
    return 0;
}

int main(int count, char **words) {
    if (count < 3) {
        return answer();
    }
    drawn = strtoull(words[1], NULL, 10);
    return draw_schedule((uint32_t)strtoul(words[2], NULL, 10));
}
