/* The calls of csq_replay.h, and their refusals. That the machine accepts what csqsim accepts is
 * compared in replay_schedule.c. */
#include "replay_words.h"

#include "check.h"

enum { IRPS = 3, PASSES = 4 };

static struct csq_size size_with(uint32_t irps, uint32_t passes, uint32_t life) {
    /* The other numbers, which aren't looked at, are out of range. */
    struct csq_size size = { irps, 0, irps + 1, passes, life, 9 };
    return size;
}

static struct csq_replay made(uint32_t life) {
    struct csq_replay replay = { NULL };
    struct csq_size size = size_with(IRPS, PASSES, life);
    IS(csq_replay_new(&replay, &size), CSQ_OK);
    return replay;
}

/* What out parameters hold before a call. */
static const struct csq_inside no_inside = {
    UNWRITTEN, UNWRITTEN, { UNWRITTEN, UNWRITTEN }, UNWRITTEN
};

static int same_inside(const struct csq_inside *one, const struct csq_inside *other) {
    return one->call == other->call && one->next == other->next && one->irp.irp == other->irp.irp &&
           one->irp.life == other->irp.life && one->since == other->since;
}

/* The step that was made last, and what it stored. */
static struct csq_step last;
static struct csq_refusal refusal;
static uint32_t found;

static uint32_t make_last(struct csq_replay *replay) {
    const struct csq_refusal unwritten = { UNWRITTEN, UNWRITTEN, no_inside };
    refusal = unwritten;
    found = UNWRITTEN;
    return csq_replay_step(replay, &last, &found, &refusal);
}

/* Makes the steps of a text, each of which a semicolon ends, and numbers them 10, 20 and so on.
 * Returns the code of the last one; those before it are accepted. */
static uint32_t code_of(struct csq_replay *replay, const char *text) {
    uint32_t code = CSQ_OK;
    uint64_t number = 0;
    for (const char *line = text; *line; line += strcspn(line, ";") + 1) {
        last = step_of(line + strspn(line, " "), number += 10);
        IS(code, CSQ_OK);
        code = make_last(replay);
    }
    return code;
}

/* ---- Steps ---- */

#define HELD "p1 arm 0; p1 test 0; p1 disarm 0;"
#define DONE_0 HELD "p1 done 0;"
#define OWED "p1 arm 0; p1 test 0; p2 flag 0; p2 take 0;"

/* Each kind of step, with each value that it may find. */
static const struct {
    const char *steps;
    uint32_t found;
} accepted[] = {
    { "p1 arm 0;", 0 },
    { "p1 arm 0; p1 test 0;", 0 },
    { "p2 flag 0; p2 take 0; p1 arm 0; p1 test 0;", 1 },
    { "p2 flag 0; p2 take 0; p1 arm 0; p1 test 0; p1 disarm 0;", 1 },
    { "p1 arm 0; p2 flag 0; p2 take 0; p1 test 0; p1 disarm 0;", 0 },
    { HELD, 1 },
    { OWED "p3 disarm 0;", 0 },
    { OWED "p3 disarm 0; p3 disarm 0;", 0 },
    { OWED "p3 disarm 0; p3 end;", 0 },
    { "p1 end;", 0 },
    { "p1 flag 0;", 0 },
    { "p1 flag 0; p2 flag 0;", 1 },
    { "p1 flag 0; p1 take 0;", 0 },
    { OWED, 1 },
    { OWED "p2 out 0;", 0 },
    { OWED "p2 out 0; p2 done 0;", 0 },
    { DONE_0, 0 },
    { DONE_0 "p4 renew 0;", 0 },
    { DONE_0 "p4 renew 0; p1 arm 0@1; p1 test 0@1;", 0 },
    { HELD "p1 rearm 0;", 0 },
    { HELD "p1 rearm 0; p1 test 0;", 0 },
    { HELD "p2 flag 0; p2 take 0; p1 rearm 0; p1 test 0; p1 disarm 0;", 1 },
    /* A take of an earlier life comes too late. */
    { "p2 flag 0;" DONE_0 "p1 renew 0; p1 arm 0@1; p2 take 0;", 0 },
};

static void each_kind_of_step_is_made(void) {
    for (size_t row = 0; row < sizeof accepted / sizeof *accepted; row++) {
        struct csq_replay replay = made(0);
        IS(code_of(&replay, accepted[row].steps), CSQ_OK);
        IS(found, accepted[row].found);
        IS(refusal.pass & refusal.life, UNWRITTEN);
        CHECK(same_inside(&refusal.inside, &no_inside));
        IS(csq_replay_free(&replay), CSQ_OK);
    }
}

/* Each cause, the first of those that hold, with whom it is about. */
static const struct {
    const char *steps;
    uint32_t code;
    struct csq_refusal refusal;
} refused[] = {
    { "p9 arm 3;", CSQ_UNKNOWN_IRP, { 9, 0, { 0, 0, { 0, 0 }, 0 } } },
    { "p1 arm 0; p1 take 3;", CSQ_UNKNOWN_IRP, { 1, 0, { 1, 2, { 0, 0 }, 10 } } },
    { "p0 end;", CSQ_UNKNOWN_PASS, { 0, 0, { 0, 0, { 0, 0 }, 0 } } },
    { "p1 arm 0; p5 arm 1;", CSQ_UNKNOWN_PASS, { 5, 0, { 0, 0, { 0, 0 }, 0 } } },
    { "p1 arm 0; p2 test 1;", CSQ_LOCK_HELD, { 1, 0, { 1, 2, { 0, 0 }, 10 } } },
    { "p2 flag 0; p1 arm 0; p1 test 0; p2 end;", CSQ_LOCK_HELD, { 1, 0, { 1, 3, { 0, 0 }, 20 } } },
    { OWED "p3 disarm 0; p4 arm 1;", CSQ_LOCK_HELD, { 3, 0, { 2, 3, { 0, 0 }, 50 } } },
    { OWED "p3 disarm 0; p3 disarm 0; p4 renew 1;", CSQ_LOCK_HELD,
      { 3, 0, { 2, 3, { 0, 0 }, 50 } } },
    { HELD "p1 rearm 0; p2 out 0;", CSQ_LOCK_HELD, { 1, 0, { 4, 2, { 0, 0 }, 40 } } },
    { HELD "p2 flag 0; p1 rearm 0; p1 test 0; p3 end;", CSQ_LOCK_HELD,
      { 1, 0, { 4, 3, { 0, 0 }, 50 } } },
    { "p1 arm 0; p1 end;", CSQ_NOT_NEXT, { 1, 0, { 1, 2, { 0, 0 }, 10 } } },
    { "p1 arm 0; p1 test 1;", CSQ_NOT_NEXT, { 1, 0, { 1, 2, { 0, 0 }, 10 } } },
    { "p1 arm 0; p1 test 0@1;", CSQ_NOT_NEXT, { 1, 0, { 1, 2, { 0, 0 }, 10 } } },
    { "p1 flag 2; p1 done 0;", CSQ_NOT_NEXT, { 1, 0, { 3, 6, { 2, 0 }, 10 } } },
    { OWED "p3 disarm 0; p3 arm 1;", CSQ_NOT_NEXT, { 3, 0, { 2, 3, { 0, 0 }, 50 } } },
    { "p1 test 0;", CSQ_NOT_NEXT, { 1, 0, { 0, 0, { 0, 0 }, 0 } } },
    { "p1 arm 0; p1 test 0; p1 take 0;", CSQ_NOT_NEXT, { 1, 0, { 0, 0, { 0, 0 }, 0 } } },
    { "p1 arm 0; p1 test 0; p1 arm 0;", CSQ_NOT_HOME, { 1, 0, { 0, 0, { 0, 0 }, 0 } } },
    { DONE_0 "p1 renew 0; p1 arm 0;", CSQ_NOT_HOME, { 1, 0, { 0, 0, { 0, 0 }, 0 } } },
    { "p1 disarm 0;", CSQ_NOT_LISTED, { 1, 0, { 0, 0, { 0, 0 }, 0 } } },
    { OWED "p3 disarm 0; p3 disarm 1;", CSQ_NOT_LISTED, { 3, 0, { 2, 3, { 0, 0 }, 50 } } },
    { "p1 arm 0; p1 test 0; p1 disarm 0@1;", CSQ_NOT_LISTED, { 1, 0, { 0, 0, { 0, 0 }, 0 } } },
    { OWED "p1 out 0;", CSQ_NOT_OWED, { 1, 0, { 0, 0, { 0, 0 }, 0 } } },
    { HELD "p1 out 0;", CSQ_NOT_OWED, { 1, 0, { 0, 0, { 0, 0 }, 0 } } },
    { HELD "p2 done 0;", CSQ_NOT_HELD, { 2, 0, { 0, 0, { 0, 0 }, 0 } } },
    { OWED "p2 done 0;", CSQ_NOT_HELD, { 2, 0, { 0, 0, { 0, 0 }, 0 } } },
    { OWED "p2 out 0; p2 rearm 0;", CSQ_NOT_HELD, { 2, 0, { 0, 0, { 0, 0 }, 0 } } },
    { HELD "p2 rearm 0;", CSQ_NOT_HELD, { 2, 0, { 0, 0, { 0, 0 }, 0 } } },
    { "p1 arm 0@1;", CSQ_STALE, { 1, 0, { 0, 0, { 0, 0 }, 0 } } },
    { DONE_0 "p1 renew 0; p2 flag 0;", CSQ_STALE, { 2, 1, { 0, 0, { 0, 0 }, 0 } } },
    { DONE_0 "p1 renew 0; p2 renew 0;", CSQ_STALE, { 2, 1, { 0, 0, { 0, 0 }, 0 } } },
    { HELD "p2 renew 0;", CSQ_NOT_COMPLETED, { 2, 0, { 0, 0, { 0, 0 }, 0 } } },
};

static void the_first_cause_refuses_a_step(void) {
    for (size_t row = 0; row < sizeof refused / sizeof *refused; row++) {
        struct csq_replay replay = made(0);
        IS(code_of(&replay, refused[row].steps), refused[row].code);
        IS(found, UNWRITTEN);
        IS(refusal.pass, refused[row].refusal.pass);
        IS(refusal.life, refused[row].refusal.life);
        CHECK(same_inside(&refusal.inside, &refused[row].refusal.inside));
        IS(csq_replay_free(&replay), CSQ_OK);
    }
}

static void the_last_life_is_not_renewed(void) {
    struct csq_replay replay = made(CSQ_LAST_LIFE);
    IS(code_of(&replay, "p1 arm 0@1073741823; p1 test 0@1073741823; p1 disarm 0@1073741823;"
                        "p1 done 0@1073741823; p1 renew 0@1073741823;"),
       CSQ_LIVES_SPENT);
    IS(code_of(&replay, "p1 arm 1;"), CSQ_STALE);
    IS(refusal.life, CSQ_LAST_LIFE);
    IS(csq_replay_free(&replay), CSQ_OK);
}

/* So the same step is refused again, for the same cause. */
static void a_refusal_changes_nothing(void) {
    for (size_t row = 0; row < sizeof refused / sizeof *refused; row++) {
        struct csq_replay replay = made(0);
        struct csq_placed before, after;
        IS(code_of(&replay, refused[row].steps), refused[row].code);
        const struct csq_refusal first = refusal;
        IS(csq_replay_irp(&replay, 0, &before), CSQ_OK);
        IS(make_last(&replay), refused[row].code);
        IS(csq_replay_irp(&replay, 0, &after), CSQ_OK);
        CHECK(refusal.pass == first.pass && refusal.life == first.life);
        CHECK(same_inside(&refusal.inside, &first.inside));
        CHECK(memcmp(&before, &after, sizeof before) == 0);
        IS(csq_replay_free(&replay), CSQ_OK);
    }
}

static void a_kind_that_there_is_not_stores_nothing(void) {
    static const uint32_t kinds[] = { 0, CSQ_STEP_REARM + 1, UINT32_MAX };
    struct csq_replay replay = made(0);
    for (int at = 0; at < 3; at++) {
        const struct csq_step step = { 1, 9, kinds[at], { 9, 9 } };
        found = refusal.pass = UNWRITTEN;
        IS(csq_replay_step(&replay, &step, &found, &refusal), CSQ_BAD_SIZE);
        IS(found & refusal.pass, UNWRITTEN);
    }
    IS(csq_replay_free(&replay), CSQ_OK);
}

/* ---- What they led to ---- */

static const struct {
    const char *steps;
    uint32_t rest;
    struct csq_placed placed; /* of IRP 0 */
} led[] = {
    { "", CSQ_OK, { 0, CSQ_PLACE_HOME, 0, 0, 0 } },
    { "p2 arm 0;", CSQ_HOLDING, { 0, CSQ_PLACE_LISTED, 0, 0, 0 } },
    { "p1 arm 0; p1 test 0;", CSQ_OK, { 0, CSQ_PLACE_LISTED, 0, 0, 0 } },
    { "p2 flag 0;", CSQ_HOLDING, { 0, CSQ_PLACE_HOME, 0, 0, 1 } },
    { OWED, CSQ_HOLDING, { 0, CSQ_PLACE_OWED, 2, 0, 1 } },
    { OWED "p2 disarm 0;", CSQ_HOLDING, { 0, CSQ_PLACE_OWED, 2, 0, 1 } },
    { OWED "p2 out 0;", CSQ_HOLDING, { 0, CSQ_PLACE_HELD, 2, 0, 1 } },
    { OWED "p2 out 0; p2 done 0;", CSQ_OK,
      { 0, CSQ_PLACE_COMPLETED, 2, CSQ_STATUS_CANCELLED, 1 } },
    { HELD, CSQ_HOLDING, { 0, CSQ_PLACE_HELD, 1, 0, 0 } },
    { DONE_0, CSQ_OK, { 0, CSQ_PLACE_COMPLETED, 1, 0, 0 } },
    { OWED "p2 out 0; p2 done 0; p1 renew 0;", CSQ_OK, { 1, CSQ_PLACE_HOME, 0, 0, 0 } },
    { DONE_0 "p1 renew 0; p2 arm 0@1;", CSQ_HOLDING, { 1, CSQ_PLACE_LISTED, 0, 0, 0 } },
};

static void each_look_says_what_the_steps_led_to(void) {
    for (size_t row = 0; row < sizeof led / sizeof *led; row++) {
        struct csq_replay replay = made(0);
        struct csq_placed placed;
        IS(code_of(&replay, led[row].steps), CSQ_OK);
        IS(csq_replay_rest(&replay), led[row].rest);
        IS(csq_replay_irp(&replay, 0, &placed), CSQ_OK);
        CHECK(memcmp(&placed, &led[row].placed, sizeof placed) == 0);
        IS(csq_replay_free(&replay), CSQ_OK);
    }
}

static void an_irp_that_there_is_not_is_refused(void) {
    struct csq_replay replay = made(0);
    struct csq_placed placed = { UNWRITTEN, UNWRITTEN, UNWRITTEN, UNWRITTEN, UNWRITTEN };
    IS(csq_replay_irp(&replay, IRPS, &placed), CSQ_UNKNOWN_IRP);
    IS(csq_replay_irp(&replay, UINT32_MAX, &placed), CSQ_UNKNOWN_IRP);
    IS(placed.life & placed.place & placed.pass & placed.status & placed.cancelled, UNWRITTEN);
    IS(csq_replay_irp(&replay, IRPS - 1, &placed), CSQ_OK);
    IS(placed.place, CSQ_PLACE_HOME);
    IS(csq_replay_free(&replay), CSQ_OK);
}

/* ---- Handles and sizes ---- */

static void an_empty_handle_is_refused_by_each_call(void) {
    struct csq_replay replay = { NULL };
    struct csq_step step = { 1, 1, CSQ_STEP_ARM, { 0, 0 } };
    struct csq_placed placed = { UNWRITTEN, 0, 0, 0, 0 };
    found = refusal.pass = UNWRITTEN;
    IS(csq_replay_step(&replay, &step, &found, &refusal), CSQ_EMPTY_HANDLE);
    step.kind = 0;
    IS(csq_replay_step(&replay, &step, &found, &refusal), CSQ_EMPTY_HANDLE);
    IS(csq_replay_rest(&replay), CSQ_EMPTY_HANDLE);
    IS(csq_replay_irp(&replay, 9, &placed), CSQ_EMPTY_HANDLE);
    IS(csq_replay_free(&replay), CSQ_EMPTY_HANDLE);
    IS(found & refusal.pass & placed.life, UNWRITTEN);
    CHECK(!replay.at);
}

static void a_filled_handle_is_not_filled_again(void) {
    struct csq_replay replay = made(0);
    struct csq_size bad = size_with(0, 0, 0);
    struct csq_placed placed;
    void *at = replay.at;
    IS(code_of(&replay, "p1 arm 0;"), CSQ_OK);
    IS(csq_replay_new(&replay, &bad), CSQ_NOT_EMPTY);
    CHECK(replay.at == at);
    IS(csq_replay_irp(&replay, 0, &placed), CSQ_OK);
    IS(placed.place, CSQ_PLACE_LISTED);
    IS(csq_replay_free(&replay), CSQ_OK);
    CHECK(!replay.at);
    IS(csq_replay_free(&replay), CSQ_EMPTY_HANDLE);
}

static void a_size_out_of_range_is_refused(void) {
    static const struct {
        uint32_t irps, passes, life, code;
    } rows[] = {
        { 1, 1, 0, CSQ_OK },
        { CSQ_MOST_IRPS, CSQ_MOST_PASSES, CSQ_LAST_LIFE, CSQ_OK },
        { 0, 1, 0, CSQ_BAD_SIZE },
        { 1, 0, 0, CSQ_BAD_SIZE },
        { CSQ_MOST_IRPS + 1, 1, 0, CSQ_BAD_SIZE },
        { 1, CSQ_MOST_PASSES + 1, 0, CSQ_BAD_SIZE },
        { 1, 1, CSQ_LAST_LIFE + 1, CSQ_BAD_SIZE },
        { UINT32_MAX, UINT32_MAX, UINT32_MAX, CSQ_BAD_SIZE },
    };
    for (size_t row = 0; row < sizeof rows / sizeof *rows; row++) {
        struct csq_replay replay = { NULL };
        struct csq_size size = size_with(rows[row].irps, rows[row].passes, rows[row].life);
        struct csq_placed placed;
        IS(csq_replay_new(&replay, &size), rows[row].code);
        CHECK((rows[row].code == CSQ_OK) == (replay.at != NULL));
        if (replay.at) {
            IS(csq_replay_irp(&replay, size.irps - 1, &placed), CSQ_OK);
            IS(placed.life, size.first_life);
            IS(csq_replay_free(&replay), CSQ_OK);
        }
    }
}

int main(void) {
    RUN(each_kind_of_step_is_made);
    RUN(the_first_cause_refuses_a_step);
    RUN(the_last_life_is_not_renewed);
    RUN(a_refusal_changes_nothing);
    RUN(a_kind_that_there_is_not_stores_nothing);
    RUN(each_look_says_what_the_steps_led_to);
    RUN(an_irp_that_there_is_not_is_refused);
    RUN(an_empty_handle_is_refused_by_each_call);
    RUN(a_filled_handle_is_not_filled_again);
    RUN(a_size_out_of_range_is_refused);
    return DONE();
}
