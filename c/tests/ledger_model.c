/* Random calls of several ledgers beside a model of csq_ledger.h, made from its comments alone. The
 * arguments are the number of calls and the seed. The first answer that isn't the model's ends the
 * run. */
#include "requests_model.h"

/* ---- A ledger's beginning and end ---- */

static void call_new(struct model *it) {
    struct csq_size size;
    uint32_t limits[MOST_FILES], count, is_right = draw_size(&size);
    const uint32_t is_limited = is_right && one_in(2), is_filled = it->ledger.at != NULL;
    void *const was = it->ledger.at;
    if (is_limited) {
        is_right = draw_limits(&size, limits);
    }
    count = is_limited && one_in(16) ? size.files - 1 : size.files;
    is_right &= count == size.files;
    if (!is_filled) {
        memset(it, 0, sizeof *it);
    }
    code_is(is_limited ? csq_ledger_new_with_file_limits(&it->ledger, &size, limits, count)
                       : csq_ledger_new(&it->ledger, &size),
            is_filled  ? CSQ_NOT_EMPTY
            : is_right ? CSQ_OK
                       : CSQ_BAD_SIZE);
    if (is_filled || !is_right) {
        pointer_is("the ledger", it->ledger.at, was);
    } else {
        begin_queue(it, &size, is_limited ? limits : NULL);
    }
}

static void call_close(struct model *it) {
    it->closed = 1;
    code_is(csq_ledger_close(&it->ledger), CSQ_OK);
}

static void call_close_file(struct model *it) {
    const uint32_t file = draw_file(it), is_known = file < it->size.files;
    code_is(csq_ledger_close_file(&it->ledger, file), is_known ? CSQ_OK : CSQ_UNKNOWN_FILE);
    if (is_known) {
        it->file_closed[file] = 1;
    }
}

/* ---- A request's way ---- */

/* The end of a request of this file object, which the model has ended, or none. */
static void ended_is(const struct model *it, const struct csq_ended *got, const uint32_t *file) {
    number_is("the file object", got->file, file ? *file : UNWRITTEN);
    number_is("whether it is quiet", got->file_is_quiet,
              file ? count_of(it, *file, 0) == 0 : UNWRITTEN);
    number_is("whether all are", got->all_are_quiet, file ? it->count == 0 : UNWRITTEN);
}

/* A time, which other requests may have too. */
static uint64_t draw_due(const struct model *it) {
    if (one_in(3)) {
        return CSQ_NEVER;
    }
    return one_in(10) ? CSQ_NEVER - 1 - draw(2) : it->now + draw(one_in(4) ? 1u << draw(31) : 30);
}

static void call_begin(struct model *it) {
    const uint32_t file = draw_file(it), front = one_in(3), code = code_of_begin(it, file);
    const uint64_t due = draw_due(it);
    struct csq_irp name = { UNWRITTEN, UNWRITTEN }, want = name;
    if (code == CSQ_OK) {
        want = begin(it, file, front, due, NULL);
    }
    code_is(csq_ledger_begin(&it->ledger, file, front, due, &name), code);
    name_is(name, want);
}

/* The first that is listed for a file object is out of the list, if there is one. */
static void first_is_out(struct model *it, uint32_t file, struct csq_irp name, uint32_t of_file,
                         enum csq_stage stage, uint32_t why) {
    struct entry *entry = knows(it, file) ? first_listed(it, file) : NULL;
    const struct csq_irp none = { UNWRITTEN, UNWRITTEN };
    name_is(name, entry ? entry->name : none);
    number_is("its file object", of_file, entry ? entry->file : UNWRITTEN);
    if (entry) {
        move(it, entry, stage, why);
    }
}

static uint32_t code_of_first(struct model *it, uint32_t file) {
    return !knows(it, file) ? CSQ_UNKNOWN_FILE : first_listed(it, file) ? CSQ_OK : CSQ_NONE;
}

static void call_take(struct model *it) {
    const uint32_t file = draw_file(it);
    struct csq_irp name = { UNWRITTEN, UNWRITTEN };
    uint32_t of_file = UNWRITTEN;
    code_is(csq_ledger_take(&it->ledger, file, &name, &of_file), code_of_first(it, file));
    first_is_out(it, file, name, of_file, CSQ_STAGE_TAKEN, CSQ_WHY_NONE);
}

static void call_put_back(struct model *it) {
    const struct csq_irp name = draw_name(it);
    const uint32_t front = one_in(2), code = put_back(it, name, front);
    code_is(csq_ledger_put_back(&it->ledger, name, front), code);
}

static void call_finish(struct model *it) {
    const struct csq_irp name = draw_name(it);
    const struct entry *entry = find(it, name);
    const uint32_t file = entry ? entry->file : 0, status = draw_status();
    const uint32_t code = finish(it, name, status);
    struct csq_ended ended = { UNWRITTEN, UNWRITTEN, UNWRITTEN };
    code_is(csq_ledger_finish(&it->ledger, name, status, &ended), code);
    ended_is(it, &ended, code == CSQ_OK ? &file : NULL);
}

/* ---- Ends without a worker ---- */

/* A cause, seldom none. */
static uint32_t draw_why(void) {
    static const uint32_t wrong[] = { CSQ_WHY_NONE, CSQ_WHY_DUE + 1, UINT32_MAX };
    return one_in(16) ? wrong[draw(3)] : 1 + draw(CSQ_WHY_DUE);
}

static uint32_t is_why(uint32_t why) { return 1 <= why && why <= CSQ_WHY_DUE; }

static void call_cancel(struct model *it) {
    const struct csq_irp name = draw_name(it);
    const uint32_t why = draw_why(), code = is_why(why) ? cancel(it, name, why) : CSQ_BAD_SIZE;
    code_is(csq_ledger_cancel(&it->ledger, name, why), code);
    if (code == CSQ_OK) {
        move(it, find(it, name), CSQ_STAGE_ENDING, why);
    }
}

static void call_drain_next(struct model *it) {
    const uint32_t file = draw_file(it), why = draw_why();
    struct csq_irp name = { UNWRITTEN, UNWRITTEN };
    uint32_t of_file = UNWRITTEN;
    code_is(csq_ledger_drain_next(&it->ledger, file, why, &name, &of_file),
            is_why(why) ? code_of_first(it, file) : CSQ_BAD_SIZE);
    if (is_why(why)) {
        first_is_out(it, file, name, of_file, CSQ_STAGE_ENDING, why);
    } else {
        number_is("the name", name.irp, UNWRITTEN);
    }
}

/* Of several that are due first it names any. */
static void call_expire(struct model *it) {
    const uint64_t now = one_in(20) ? CSQ_NEVER - draw(3) : it->now + draw(20);
    const struct entry *first = first_due(it, CSQ_STAGE_NONE);
    const uint32_t code = first && first->due <= now ? CSQ_OK : CSQ_NONE;
    struct csq_irp name = { UNWRITTEN, UNWRITTEN };
    struct entry *entry;
    uint32_t stage = UNWRITTEN;
    it->now = now < UINT32_MAX ? now : it->now;
    code_is(csq_ledger_expire(&it->ledger, now, &name, &stage), code);
    entry = find(it, name);
    number_is("whether it is under way", entry != NULL, code == CSQ_OK);
    if (!entry) {
        number_is("the stage", stage, UNWRITTEN);
        return;
    }
    number_is("whether it is due first", entry->due == first->due, 1);
    if (entry->stage == CSQ_STAGE_LISTED) {
        entry = move(it, entry, CSQ_STAGE_ENDING, CSQ_WHY_DUE);
    }
    entry->due = CSQ_NEVER;
    entry->why = entry->why ? entry->why : (uint32_t)CSQ_WHY_DUE;
    number_is("the stage", stage, entry->stage);
}

static void call_end(struct model *it) {
    const struct csq_irp name = draw_name(it);
    struct csq_ended ended = { UNWRITTEN, UNWRITTEN, UNWRITTEN };
    struct entry *entry = find(it, name);
    const uint32_t file = entry ? entry->file : 0;
    uint32_t code = CSQ_OK;
    if (name.irp >= it->size.irps) {
        code = CSQ_UNKNOWN_IRP;
    } else if (!entry || entry->stage != CSQ_STAGE_ENDING) {
        code = CSQ_NOT_HELD;
    } else {
        end(it, entry);
    }
    code_is(csq_ledger_end(&it->ledger, name, &ended), code);
    ended_is(it, &ended, code == CSQ_OK ? &file : NULL);
}

/* It is freed once nothing is under way. */
static void call_free(struct model *it) {
    struct csq_ended ended;
    const uint32_t left = one_in(3);
    while (it->count > left && it->entries[it->count - 1].stage != CSQ_STAGE_LISTED) {
        struct entry *last = &it->entries[it->count - 1];
        code_is(last->stage == CSQ_STAGE_ENDING
                    ? csq_ledger_end(&it->ledger, last->name, &ended)
                    : csq_ledger_finish(&it->ledger, last->name, CSQ_STATUS_CANCELLED, &ended),
                CSQ_OK);
        end(it, last);
    }
    code_is(csq_ledger_free(&it->ledger), it->count ? CSQ_HOLDING : CSQ_OK);
    number_is("whether it is there", it->ledger.at != NULL, it->count > 0);
}

/* ---- Looks ---- */

static void call_next_due(struct model *it) {
    const struct entry *first = first_due(it, CSQ_STAGE_NONE);
    uint64_t due = UNWRITTEN;
    code_is(csq_ledger_next_due(&it->ledger, &due), first ? CSQ_OK : CSQ_NONE);
    number_is("when the next one is due", due, first ? first->due : UNWRITTEN);
}

static void call_look(struct model *it) {
    const struct csq_irp name = draw_name(it);
    const struct entry *entry = find(it, name);
    const uint32_t is_known = name.irp < it->size.irps, none = is_known ? 0 : UNWRITTEN;
    struct csq_look look = { UNWRITTEN, UNWRITTEN, UNWRITTEN };
    code_is(csq_ledger_look(&it->ledger, name, &look), is_known ? CSQ_OK : CSQ_UNKNOWN_IRP);
    number_is("the stage", look.stage, entry ? entry->stage : none);
    number_is("the file object", look.file, entry ? entry->file : none);
    number_is("why", look.why, entry ? entry->why : none);
}

static void call_len(struct model *it) {
    const uint32_t file = draw_file(it), is_known = knows(it, file);
    uint32_t listed = UNWRITTEN, under_way = UNWRITTEN;
    code_is(csq_ledger_len(&it->ledger, file, &listed, &under_way),
            is_known ? CSQ_OK : CSQ_UNKNOWN_FILE);
    number_is("how many are listed", listed, is_known ? count_of(it, file, 1) : UNWRITTEN);
    number_is("how many are under way", under_way, is_known ? count_of(it, file, 0) : UNWRITTEN);
}

/* ---- The run ---- */

/* The calls, and in how many of all turns each is made. */
static const struct call {
    const char *name;
    void (*make)(struct model *);
    uint32_t weight;
} calls[] = {
    { "csq_ledger_begin", call_begin, 250 },
    { "csq_ledger_take", call_take, 160 },
    { "csq_ledger_finish", call_finish, 120 },
    { "csq_ledger_put_back", call_put_back, 120 },
    { "csq_ledger_cancel", call_cancel, 70 },
    { "csq_ledger_end", call_end, 80 },
    { "csq_ledger_expire", call_expire, 70 },
    { "csq_ledger_drain_next", call_drain_next, 40 },
    { "csq_ledger_look", call_look, 30 },
    { "csq_ledger_len", call_len, 30 },
    { "csq_ledger_next_due", call_next_due, 20 },
    { "csq_ledger_free", call_free, 5 },
    { "csq_ledger_new", call_new, 2 },
    { "csq_ledger_close_file", call_close_file, 2 },
    { "csq_ledger_close", call_close, 1 },
};
enum { TURNS = 1000 };

/* Of a ledger that isn't there the call is csq_ledger_new. */
static void make_call(struct model *it) {
    const struct call *call = calls;
    uint32_t turn = draw(TURNS);
    while (turn >= call->weight) {
        turn -= call->weight;
        call++;
    }
    call_name = it->ledger.at ? call->name : "csq_ledger_new";
    calls_made++;
    (it->ledger.at ? call->make : call_new)(it);
}

/* What is listed is drained, and then all is ended and freed. */
static void end_ledger(struct model *it) {
    while (it->ledger.at) {
        struct entry *entry = first_listed(it, CSQ_ANY);
        if (entry) {
            code_is(csq_ledger_cancel(&it->ledger, entry->name, CSQ_WHY_FREE), CSQ_OK);
            move(it, entry, CSQ_STAGE_ENDING, CSQ_WHY_FREE);
        } else {
            call_free(it);
        }
    }
}

int main(int count, char **words) {
    const unsigned long wanted = count > 1 ? strtoul(words[1], NULL, 10) : 1000000;
    seed = count > 2 ? strtoul(words[2], NULL, 10) : 1;
    drawn = seed * UINT64_C(0x9E3779B97F4A7C15) | 1;
    while (calls_made < wanted) {
        make_call(&models[draw(QUEUES)]);
    }
    for (int at = 0; at < QUEUES; at++) {
        end_ledger(&models[at]);
    }
    each_code_was_seen();
    printf("passed %lu random calls are as the model says\n", wanted);
    return 0;
}
