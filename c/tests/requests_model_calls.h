/* What the calls of submitters and workers return by the model of csq_requests.h, and what its
 * events are called with. */
#ifndef REQUESTS_MODEL_CALLS_H
#define REQUESTS_MODEL_CALLS_H

#include "requests_model.h"

/* What a pointer holds before a call, and how many values were submitted, each another one. */
static char unwritten;
static uintptr_t values;

/* ---- The events ---- */

static void make_calls(uint32_t count);

/* Further calls from inside of an event of this queue. */
static void call_inside(struct model *it) {
    struct ending *ending = it->ending;
    const char *name = call_name;
    if (depth < DEEPEST && one_in(3)) {
        depth++;
        make_calls(draw(4));
        depth--;
    }
    it->ending = ending;
    call_name = name;
}

/* The request that the running call ends next is this one, which is ending from now on. */
static struct entry *begin_end(struct model *it, const struct csq_ending *told) {
    struct entry *entry = it->ending && !it->ending->is_between ? next_to_end(it) : NULL;
    if (!entry) {
        differ("an event", "called", "to be called");
        return NULL;
    }
    name_is(told->name, entry->name);
    entry = expected(it, entry);
    it->ending->now = told->name;
    it->ending->is_between = 1;
    return entry;
}

static void event_is(struct model *it, const struct csq_ending *told) {
    const struct entry *entry = find(it, told->name);
    number_is("whether it is ending", entry && entry->stage == CSQ_STAGE_ENDING, 1);
    name_is(told->name, it->ending->now);
    number_is("the file object", told->file, entry->file);
    number_is("why", told->why, entry->why);
    pointer_is("the value", told->value, entry->value);
    pointer_is("the word", told->word, it->ending->word);
}

static void before_completion(void *context, const struct csq_ending *told) {
    struct model *it = context;
    begin_end(it, told);
    event_is(it, told);
    call_inside(it);
    if (!it->has_after) {
        it->ending->is_between = 0;
        end(it, find(it, told->name));
    }
}

static void after_completion(void *context, const struct csq_ending *told) {
    struct model *it = context;
    if (!it->has_before) {
        begin_end(it, told);
    }
    event_is(it, told);
    it->ending->is_between = 0;
    it->telling[told->file]++;
    it->telling[ALL]++;
    end(it, find(it, told->name));
    call_inside(it);
    it->telling[told->file]--;
    it->telling[ALL]--;
    end_drains(it);
}

/* Each drain that was started is told once, when it is over. Its memory is used again. */
static void is_quiet(struct csq_quiet *quiet) {
    struct drain *drain = quiet->context;
    number_is("whether a drain is on", drain->is_on, 1);
    number_is("whether it is over", drain->is_over, 1);
    memset(drain, 0, sizeof *drain);
}

/* ---- The calls: the model has done each before the queue does ---- */

static void call_new(struct model *it) {
    const uint32_t has_before = !one_in(4), has_after = !one_in(4), is_null = one_in(2);
    struct csq_requests_events events = { has_before ? before_completion : NULL,
                                          has_after ? after_completion : NULL, it };
    struct csq_requests *const was = it->real;
    struct csq_size size;
    uint32_t limits[MOST_FILES], is_right = draw_size(&size);
    const uint32_t is_limited = is_right && one_in(2);
    if (is_limited) {
        is_right = draw_limits(&size, limits);
    }
    if (!was) {
        memset(it, 0, sizeof *it);
    }
    code_is(csq_requests_new(&it->real, &size, is_limited ? limits : NULL,
                             has_before || has_after || !is_null ? &events : NULL),
            was        ? CSQ_NOT_EMPTY
            : is_right ? CSQ_OK
                       : CSQ_BAD_SIZE);
    if (was || !is_right) {
        number_is("whether the queue is what it was", it->real == was, 1);
        return;
    }
    it->has_before = has_before;
    it->has_after = has_after;
    begin_queue(it, &size, is_limited ? limits : NULL);
}

/* No submit is accepted any more, and each eventfd is readable. */
static void close_queue(struct model *it) {
    it->closed = 1;
    for (uint32_t at = 0; at <= ALL; at++) {
        it->listed_fds[at].readable = it->room_fds[at].readable = 1;
    }
}

static void call_close(struct model *it) {
    close_queue(it);
    csq_requests_close(it->real);
}

/* Completes each request that is taken, and frees the queue, or seldom not the last of them. */
static void call_free(struct model *it) {
    struct ending ending = { .file = CSQ_ANY, .why = CSQ_WHY_FREE };
    uint32_t left = one_in(3), code;
    if (depth > 0) {
        return;
    }
    while (it->count > left && it->entries[it->count - 1].stage == CSQ_STAGE_TAKEN) {
        struct csq_request request = { it->entries[it->count - 1].name, 0, NULL };
        end(it, &it->entries[it->count - 1]);
        code_is(csq_requests_complete(it->real, &request, CSQ_STATUS_CANCELLED), CSQ_OK);
    }
    close_queue(it);
    it->ending = &ending;
    end_at_once(it);
    code = csq_requests_free(&it->real);
    it->ending = NULL;
    number_is("how many are listed", count_of(it, CSQ_ANY, 1), 0);
    code_is(code, it->count ? CSQ_HOLDING : CSQ_OK);
    number_is("whether the queue is there", it->real != NULL, it->count > 0);
    for (uint32_t at = 0; at < DRAINS; at++) {
        number_is("whether a drain is told", !it->drains[at].is_over, 1);
    }
}

/* A deadline that no other request has. */
static uint64_t draw_due(struct model *it) {
    uint64_t due = one_in(2) ? it->now + draw(300) : it->now / 2 + draw(1u << draw(31));
    if (one_in(4)) {
        return 0;
    }
    for (uint32_t at = 0; at < it->count; at++) {
        if (it->entries[at].due == due || due == 0) {
            due++;
            at = UINT32_MAX; /* from the first on */
        }
    }
    return due ? due : 1;
}

/* What is to be submitted. It waits for room without a limit if it is to find some. */
static struct csq_submit draw_submit(struct model *it) {
    const uint32_t file = draw_file(it), code = code_of_begin(it, file);
    struct csq_submit made = { (void *)++values, file, one_in(3), 0, draw_due(it) };
    if (code == CSQ_FULL || code == CSQ_FILE_FULL) {
        made.milliseconds = one_in(500);
    } else {
        made.milliseconds = one_in(2) ? CSQ_FOREVER : 0;
    }
    return made;
}

/* Lists it, or counts why it isn't. Returns the code, and stores the name. */
static uint32_t submit(struct model *it, const struct csq_submit *made, struct csq_irp *name) {
    const uint32_t file = made->file, code = code_of_begin(it, file);
    if (code == CSQ_OK) {
        *name = begin(it, file, made->front, made->due ? made->due : CSQ_NEVER, made->value);
        it->stats.submitted++;
        it->stats.most_under_way =
            it->stats.most_under_way > it->count ? it->stats.most_under_way : it->count;
    } else if (code == CSQ_FULL) {
        it->room_fds[ALL].readable = 0;
        it->stats.full++;
    } else if (code == CSQ_FILE_FULL) {
        it->room_fds[file].readable = 0;
        it->stats.file_full++;
    }
    return code;
}

static void call_submit(struct model *it) {
    struct csq_submit made = draw_submit(it);
    struct ending ending = { .file = made.file, .is_started = 1 }, *outer = it->ending;
    struct csq_irp want = { UNWRITTEN, UNWRITTEN }, name = want;
    const uint32_t is_plain = one_in(3);
    uint32_t code;
    made.due = is_plain ? 0 : made.due;
    code = submit(it, &made, &want);
    it->ending = &ending;
    end_at_once(it);
    code_is(is_plain ? csq_requests_submit(it->real, made.value, made.file, made.front, &name)
                     : csq_requests_submit_with(it->real, &made, &name),
            code);
    it->ending = outer;
    name_is(name, want);
}

/* Where a drain isn't over an event could come in between: then it is one alone. */
static void call_submit_many(struct model *it) {
    struct csq_submit made[4];
    struct csq_irp want[4], names[4];
    struct ending ending = { .is_started = 1 }, *outer = it->ending;
    uint32_t count = draw(4), at, submitted = UNWRITTEN, wanted = 0, code = CSQ_OK;
    memset(want, 0xAB, sizeof want);
    memset(names, 0xAB, sizeof names);
    it->ending = &ending;
    for (at = 0; at < count && code == CSQ_OK; at++) {
        made[at] = draw_submit(it);
        if (knows(it, made[at].file) && drain_of(it, made[at].file)) {
            count = at + 1;
        }
        ending.file = made[at].file;
        code = submit(it, &made[at], &want[at]);
        wanted += code == CSQ_OK;
        end_at_once(it);
    }
    code_is(csq_requests_submit_many(it->real, made, code == CSQ_OK ? count : wanted + 1, names,
                                     &submitted),
            code);
    it->ending = outer;
    number_is("how many are submitted", submitted, wanted);
    for (at = 0; at < 4; at++) {
        name_is(names[at], want[at]);
    }
}

/* What a worker gets. It returns at once, also without a limit. */
static uint32_t code_of_next(struct model *it, uint32_t file, uint32_t most) {
    const uint32_t is_known = knows(it, file);
    if (!is_known || most == 0) {
        return is_known ? CSQ_BAD_SIZE : CSQ_UNKNOWN_FILE;
    }
    if (first_listed(it, file)) {
        return CSQ_OK;
    }
    if (!it->closed) {
        it->listed_fds[place(file)].readable = 0;
    }
    return it->closed ? CSQ_CLOSED : CSQ_NONE;
}

static void request_is(struct model *it, const struct csq_request *taken, uint32_t file) {
    struct entry *entry = first_listed(it, file);
    name_is(taken->name, entry->name);
    number_is("the file object", taken->file, entry->file);
    pointer_is("the value", taken->value, entry->value);
    it->stats.taken++;
    move(it, entry, CSQ_STAGE_TAKEN, CSQ_WHY_NONE);
}

static void call_next(struct model *it) {
    const uint32_t file = draw_file(it), code = code_of_next(it, file, 1);
    const uint32_t milliseconds = code == CSQ_NONE ? one_in(500) : one_in(2) ? CSQ_FOREVER : 0;
    struct csq_request taken = { { UNWRITTEN, UNWRITTEN }, UNWRITTEN, &unwritten };
    code_is(csq_requests_next(it->real, file, milliseconds, &taken), code);
    if (code == CSQ_OK) {
        request_is(it, &taken, file);
    } else {
        name_is(taken.name, (struct csq_irp){ UNWRITTEN, UNWRITTEN });
        number_is("the file object", taken.file, UNWRITTEN);
        pointer_is("the value", taken.value, &unwritten);
    }
}

/* One worker alone gets all that is listed. */
static void call_next_many(struct model *it) {
    const uint32_t file = draw_file(it), most = draw(5), code = code_of_next(it, file, most);
    const uint32_t listed = code == CSQ_OK ? count_of(it, file, 1) : 0;
    const uint32_t milliseconds = code == CSQ_NONE ? 0 : CSQ_FOREVER;
    struct csq_request batch[5];
    uint32_t taken = UNWRITTEN;
    code_is(csq_requests_next_many(it->real, file, milliseconds, batch, most, &taken), code);
    number_is("how many are taken", taken, listed < most ? listed : most);
    for (uint32_t at = 0; at < taken; at++) {
        request_is(it, &batch[at], file);
    }
}

static void call_complete(struct model *it) {
    const struct csq_request request = { draw_name(it), draw(9), &unwritten };
    const uint32_t status = draw_status(), code = finish(it, request.name, status);
    code_is(csq_requests_complete(it->real, &request, status), code);
}

static void call_complete_many(struct model *it) {
    struct csq_request batch[4];
    const uint32_t count = draw(4), status = draw_status();
    uint32_t at, code = CSQ_OK, completed = UNWRITTEN, wanted = 0;
    for (at = 0; at < count; at++) {
        const struct csq_request request = { draw_name(it), draw(9), &unwritten };
        batch[at] = request;
        code = code == CSQ_OK ? finish(it, request.name, status) : code;
        wanted += code == CSQ_OK;
    }
    code_is(csq_requests_complete_many(it->real, batch, count, status, &completed), code);
    number_is("how many are completed", completed, wanted);
}

static void call_put_back(struct model *it) {
    const struct csq_request request = { draw_name(it), draw(9), &unwritten };
    const struct entry *entry = find(it, request.name);
    struct ending ending = { .is_started = 1 }, *outer = it->ending;
    const uint32_t front = one_in(2), file = entry ? entry->file : 0;
    const uint32_t code = put_back(it, request.name, front);
    ending.file = file;
    it->ending = &ending;
    if (code == CSQ_OK) {
        end_at_once(it);
    }
    code_is(csq_requests_put_back(it->real, &request, front), code);
    it->ending = outer;
}

#endif
