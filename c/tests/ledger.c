/* The calls of csq_ledger.h, and their refusals. Random calls beside a model are in
 * ledger_model.c. */
#include "csq_ledger.h"

#include "check.h"

enum { NAME = 5, OTHER = 6 }; /* file objects */

static struct csq_ledger made(uint32_t irps, uint32_t list) {
    struct csq_ledger ledger = { NULL };
    struct csq_size size = size_of(irps, 8, list);
    size.passes = 0; /* which isn't looked at */
    IS(csq_ledger_new(&ledger, &size), CSQ_OK);
    return ledger;
}

static struct csq_irp begun(struct csq_ledger *ledger, uint32_t file, uint64_t due) {
    struct csq_irp name = { UNWRITTEN, UNWRITTEN };
    IS(csq_ledger_begin(ledger, file, 0, due, &name), CSQ_OK);
    return name;
}

/* ---- Each call by its code, so that tables name them ---- */

static struct csq_irp stored;
static struct csq_ended ended;
static uint32_t number, other_number;

static uint32_t put_it_back(struct csq_ledger *ledger, struct csq_irp name) {
    return csq_ledger_put_back(ledger, name, 0);
}
static uint32_t finish(struct csq_ledger *ledger, struct csq_irp name) {
    return csq_ledger_finish(ledger, name, CSQ_STATUS_SUCCESS, &ended);
}
static uint32_t cancel(struct csq_ledger *ledger, struct csq_irp name) {
    return csq_ledger_cancel(ledger, name, CSQ_WHY_CANCEL);
}
static uint32_t end_it(struct csq_ledger *ledger, struct csq_irp name) {
    return csq_ledger_end(ledger, name, &ended);
}
static uint32_t begin(struct csq_ledger *ledger, struct csq_irp name) {
    (void)name;
    return csq_ledger_begin(ledger, NAME, 0, CSQ_NEVER, &stored);
}
static uint32_t take_it(struct csq_ledger *ledger, struct csq_irp name) {
    (void)name;
    return csq_ledger_take(ledger, NAME, &stored, &number);
}
static uint32_t drain(struct csq_ledger *ledger, struct csq_irp name) {
    (void)name;
    return csq_ledger_drain_next(ledger, NAME, CSQ_WHY_DRAIN, &stored, &number);
}
static uint32_t expire(struct csq_ledger *ledger, struct csq_irp name) {
    (void)name;
    return csq_ledger_expire(ledger, 7, &stored, &number);
}
static uint32_t close_it(struct csq_ledger *ledger, struct csq_irp name) {
    (void)name;
    return csq_ledger_close(ledger);
}
static uint32_t close_file(struct csq_ledger *ledger, struct csq_irp name) {
    (void)name;
    return csq_ledger_close_file(ledger, NAME);
}
static uint32_t next_due(struct csq_ledger *ledger, struct csq_irp name) {
    uint64_t due = 0;
    (void)name;
    return csq_ledger_next_due(ledger, &due);
}
static uint32_t look(struct csq_ledger *ledger, struct csq_irp name) {
    struct csq_look found;
    return csq_ledger_look(ledger, name, &found);
}
static uint32_t len(struct csq_ledger *ledger, struct csq_irp name) {
    (void)name;
    return csq_ledger_len(ledger, NAME, &number, &other_number);
}
static uint32_t free_it(struct csq_ledger *ledger, struct csq_irp name) {
    (void)name;
    return csq_ledger_free(ledger);
}

typedef uint32_t call(struct csq_ledger *ledger, struct csq_irp name);

static void an_empty_handle_is_refused_by_each_call(void) {
    static call *const calls[] = { begin, take_it, put_it_back, finish,   cancel,     drain,
                                   expire, end_it, look,        close_it, close_file, next_due,
                                   len,    free_it };
    for (size_t at = 0; at < sizeof calls / sizeof *calls; at++) {
        struct csq_ledger ledger = { NULL };
        stored = irp_in(UNWRITTEN, UNWRITTEN);
        number = other_number = ended.file = UNWRITTEN;
        IS(calls[at](&ledger, irp_in(0, 0)), CSQ_EMPTY_HANDLE);
        CHECK(!ledger.at);
        IS(stored.irp, UNWRITTEN);
        IS(number & other_number & ended.file, UNWRITTEN);
    }
}

/* The ways to each stage, of one request that is due at 7. */
static void bring_to(struct csq_ledger *ledger, uint32_t stage, struct csq_irp name) {
    if (stage == CSQ_STAGE_TAKEN) {
        IS(take_it(ledger, name), CSQ_OK);
    } else if (stage != CSQ_STAGE_LISTED) {
        IS(cancel(ledger, name), CSQ_OK);
    }
    if (stage == CSQ_STAGE_NONE) {
        IS(end_it(ledger, name), CSQ_OK);
    }
}

/* Ends what is under way, in whatever stage, and frees the ledger, unless a test has. */
static void end_all(struct csq_ledger *ledger) {
    for (uint32_t life = 0; life < 2 && ledger->at; life++) {
        const struct csq_irp name = irp_in(0, life);
        uint32_t code = cancel(ledger, name) == CSQ_NONE ? finish(ledger, name) : (uint32_t)CSQ_OK;
        code |= end_it(ledger, name);
        (void)code;
    }
    const uint32_t want = ledger->at ? CSQ_OK : CSQ_EMPTY_HANDLE;
    IS(csq_ledger_free(ledger), want);
}

/* What each call returns of a request in each stage, and the stage after it. */
static void each_stage_has_its_calls(uint32_t list) {
    static const struct {
        call *call;
        uint32_t code[4], after[4]; /* by stage */
    } rows[] = {
        { put_it_back, { CSQ_NOT_HELD, CSQ_NOT_HELD, CSQ_OK, CSQ_NOT_HELD }, { 0, 1, 1, 3 } },
        { finish, { CSQ_NOT_HELD, CSQ_NOT_HELD, CSQ_OK, CSQ_NOT_HELD }, { 0, 1, 0, 3 } },
        { end_it, { CSQ_NOT_HELD, CSQ_NOT_HELD, CSQ_NOT_HELD, CSQ_OK }, { 0, 1, 2, 0 } },
        { cancel, { CSQ_STALE, CSQ_OK, CSQ_NONE, CSQ_NONE }, { 0, 3, 2, 3 } },
        { take_it, { CSQ_NONE, CSQ_OK, CSQ_NONE, CSQ_NONE }, { 0, 2, 2, 3 } },
        { drain, { CSQ_NONE, CSQ_OK, CSQ_NONE, CSQ_NONE }, { 0, 3, 2, 3 } },
        { expire, { CSQ_NONE, CSQ_OK, CSQ_OK, CSQ_NONE }, { 0, 3, 2, 3 } },
        { next_due, { CSQ_NONE, CSQ_OK, CSQ_OK, CSQ_NONE }, { 0, 1, 2, 3 } },
        { begin, { CSQ_OK, CSQ_FULL, CSQ_FULL, CSQ_FULL }, { 0, 1, 2, 3 } },
        { free_it, { CSQ_OK, CSQ_HOLDING, CSQ_HOLDING, CSQ_HOLDING }, { 4, 1, 2, 3 } },
    };
    for (size_t at = 0; at < 4 * sizeof rows / sizeof *rows; at++) {
        struct csq_ledger ledger = made(1, list);
        const struct csq_irp name = begun(&ledger, NAME, 7);
        struct csq_look found = { UNWRITTEN, UNWRITTEN, UNWRITTEN };
        bring_to(&ledger, at % 4, name);
        IS(rows[at / 4].call(&ledger, name), rows[at / 4].code[at % 4]);
        if (rows[at / 4].after[at % 4] < 4) {
            IS(csq_ledger_look(&ledger, name, &found), CSQ_OK);
            IS(found.stage, rows[at / 4].after[at % 4]);
            IS(found.file, found.stage ? NAME : 0);
        } else {
            CHECK(!ledger.at);
        }
        end_all(&ledger);
    }
}

/* The last end of a file object, and the last of all, say so. */
static void the_last_end_says_so(uint32_t list) {
    static const uint32_t file_is_quiet[] = { 0, 1, 1 }, all_are_quiet[] = { 0, 0, 1 };
    struct csq_ledger ledger = made(3, list);
    struct csq_irp names[3];
    for (uint32_t at = 0; at < 3; at++) {
        names[at] = begun(&ledger, at < 2 ? NAME : OTHER, CSQ_NEVER);
    }
    for (uint32_t at = 0; at < 3; at++) {
        IS(cancel(&ledger, names[at]), CSQ_OK);
        IS(end_it(&ledger, names[at]), CSQ_OK);
        IS(ended.file, at < 2 ? NAME : OTHER);
        IS(ended.file_is_quiet, file_is_quiet[at]);
        IS(ended.all_are_quiet, all_are_quiet[at]);
    }
    IS(csq_ledger_free(&ledger), CSQ_OK);
}

/* What is due first is named first, whether it is listed or taken, and a time stays when a request
 * is put back. */
static void times_come_in_their_order(uint32_t list) {
    static const uint64_t dues[] = { 30, 10, CSQ_NEVER, 20, CSQ_NEVER - 1 };
    static const uint32_t order[] = { 1, 3, 0, 4 };
    struct csq_ledger ledger = made(5, list);
    struct csq_irp names[5];
    uint64_t due = 0;
    for (uint32_t at = 0; at < 5; at++) {
        names[at] = begun(&ledger, at, dues[at]);
    }
    IS(csq_ledger_take(&ledger, 3, &stored, &number), CSQ_OK);
    IS(csq_ledger_take(&ledger, 1, &stored, &number), CSQ_OK);
    IS(csq_ledger_put_back(&ledger, names[1], 0), CSQ_OK);
    for (uint32_t at = 0; at < 4; at++) {
        const uint64_t first = dues[order[at]];
        IS(csq_ledger_next_due(&ledger, &due), CSQ_OK);
        IS(due, first);
        IS(csq_ledger_expire(&ledger, first - 1, &stored, &number), CSQ_NONE);
        IS(csq_ledger_expire(&ledger, first, &stored, &number), CSQ_OK);
        IS(stored.irp, names[order[at]].irp);
        IS(number, order[at] == 3 ? CSQ_STAGE_TAKEN : CSQ_STAGE_ENDING);
        IS(order[at] == 3 ? csq_ledger_finish(&ledger, stored, CSQ_STATUS_CANCELLED, &ended)
                          : end_it(&ledger, stored), CSQ_OK);
    }
    IS(csq_ledger_expire(&ledger, CSQ_NEVER, &stored, &number), CSQ_NONE);
    IS(cancel(&ledger, names[2]), CSQ_OK);
    IS(end_it(&ledger, names[2]), CSQ_OK);
    IS(csq_ledger_free(&ledger), CSQ_OK);
}

int main(void) {
    RUN(an_empty_handle_is_refused_by_each_call);
    RUN_BOTH(each_stage_has_its_calls);
    RUN_BOTH(the_last_end_says_so);
    RUN_BOTH(times_come_in_their_order);
    return DONE();
}
