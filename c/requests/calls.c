/* csq_requests.h: submits, workers, and looks. */
#include "requests.h"

#include <string.h>

/* ---- Submits ---- */

/* Lists a value. The name is stored before the mutex is free, so that the worker that takes the
 * request finds it, also in the value. */
static inline uint32_t list(struct csq_requests *it, void *value, uint32_t file, uint32_t front,
                            uint64_t due, struct csq_irp *name) {
    uint32_t code = csq_ledger_begin(&it->ledger, file, front, due, name);
    uint64_t under_way;
    if (code != CSQ_OK) {
        return code;
    }
    it->values[name->irp] = value;
    under_way = ++it->stats.submitted - it->ended;
    if (under_way > it->stats.most_under_way) {
        it->stats.most_under_way = (uint32_t)under_way;
    }
    if (due < it->wakes) {
        system_wake(&it->tick);
    }
    requests_was_listed(it, file);
    return CSQ_OK;
}

static uint32_t list_it(struct csq_requests *it, const struct csq_submit *submit,
                        struct csq_irp *name) {
    return list(it, submit->value, submit->file, submit->front,
                submit->due ? submit->due : CSQ_NEVER, name);
}

/* Where a submit waits that was refused with this code, or NULL if it doesn't. */
static struct requests_file *room_for(struct csq_requests *it, uint32_t file, uint32_t code) {
    return code == CSQ_FULL        ? requests_file(it, CSQ_ANY)
           : code == CSQ_FILE_FULL ? requests_file(it, file)
                                   : NULL;
}

/* Lists a value that was refused with this code, once there is room. */
static uint32_t list_later(struct csq_requests *it, const struct csq_submit *submit,
                           struct csq_irp *name, uint32_t code) {
    const uint32_t file = submit->file; /* once it is listed *submit may be gone with the value */
    struct requests_limit limit = requests_limit_of(submit->milliseconds);
    struct requests_file *room = room_for(it, file, code), *waited;
    while (room && !limit.over) {
        waited = room;
        it->stats.waits_for_room += requests_pause(it, &limit, &room->room, &room->wanting);
        code = list_it(it, submit, name);
        room = room_for(it, file, code);
        /* One that was woken and makes no use of it passes it on. (If it is refused for want of the
         * same room, the others would be.) */
        if (code != CSQ_OK && room != waited && waited->wanting > 0) {
            system_wake(&waited->room);
        }
    }
    if (room) {
        requests_lower(&room->fds[REQUESTS_ROOM]);
    }
    it->stats.full += code == CSQ_FULL;
    it->stats.file_full += code == CSQ_FILE_FULL;
    return code;
}

/* Lists a value, and waits for room. */
static uint32_t submit_one(struct csq_requests *it, const struct csq_submit *submit,
                           struct csq_irp *name) {
    const uint32_t code = list_it(it, submit, name);
    return code == CSQ_OK ? code : list_later(it, submit, name, code);
}

uint32_t csq_requests_submit(struct csq_requests *it, void *value, uint32_t file, uint32_t front,
                             struct csq_irp *name) {
    uint32_t code;
    requests_lock(it);
    code = list(it, value, file, front, CSQ_NEVER, name);
    if (code != CSQ_OK) {
        const struct csq_submit submit = { value, file, front, 0, 0 };
        code = list_later(it, &submit, name, code);
    }
    return requests_return(it, code);
}

uint32_t csq_requests_submit_with(struct csq_requests *it, const struct csq_submit *submit,
                                  struct csq_irp *name) {
    requests_lock(it);
    return requests_return(it, submit_one(it, submit, name));
}

uint32_t csq_requests_submit_many(struct csq_requests *it, const struct csq_submit *submits,
                                  uint32_t count, struct csq_irp *names, uint32_t *submitted) {
    uint32_t at, code = CSQ_OK;
    requests_lock(it);
    for (at = 0; at < count && code == CSQ_OK; at++) {
        struct csq_submit submit = submits[at];
        submit.milliseconds = at == 0 ? submit.milliseconds : 0;
        code = submit_one(it, &submit, &names[at]);
    }
    *submitted = code == CSQ_OK ? count : at - 1;
    return requests_return(it, code);
}

/* ---- Workers ---- */

/* Waits for a request, since none is listed. */
static uint32_t take_later(struct csq_requests *it, uint32_t file, uint32_t milliseconds,
                           struct csq_request *request) {
    struct requests_limit limit = requests_limit_of(milliseconds);
    struct requests_file *of = requests_file(it, file);
    uint32_t code = CSQ_NONE;
    while (code == CSQ_NONE && !limit.over && !it->closed) {
        it->stats.waits += requests_pause(it, &limit, &of->listed, &of->waiting);
        code = csq_ledger_take(&it->ledger, file, &request->name, &request->file);
    }
    if (code == CSQ_NONE && it->closed) {
        return CSQ_CLOSED;
    }
    if (code == CSQ_NONE) {
        requests_lower(&of->fds[REQUESTS_LISTED]);
    }
    return code;
}

/* Takes a request, and waits for one. */
static inline uint32_t take_one(struct csq_requests *it, uint32_t file, uint32_t milliseconds,
                     struct csq_request *request) {
    uint32_t code = csq_ledger_take(&it->ledger, file, &request->name, &request->file);
    if (code == CSQ_NONE) {
        code = take_later(it, file, milliseconds, request);
    }
    if (code == CSQ_OK) {
        request->value = it->values[request->name.irp];
        it->stats.taken++;
        requests_was_unlisted(it, request->file);
    }
    return code;
}

uint32_t csq_requests_next(struct csq_requests *it, uint32_t file, uint32_t milliseconds,
                           struct csq_request *request) {
    requests_lock(it);
    return requests_return(it, take_one(it, file, milliseconds, request));
}

/* How many more a worker takes that has taken one: its part of what is listed beside. */
static uint32_t share_of(struct csq_requests *it, uint32_t file) {
    const uint32_t workers = requests_file(it, file)->waiting + 1;
    uint32_t listed = 0, under_way = 0;
    csq_ledger_len(&it->ledger, file, &listed, &under_way);
    return listed / workers;
}

uint32_t csq_requests_next_many(struct csq_requests *it, uint32_t file, uint32_t milliseconds,
                                struct csq_request *batch, uint32_t most, uint32_t *taken) {
    uint32_t code, share;
    *taken = 0;
    if (most == 0 || !requests_knows(it, file)) {
        return requests_knows(it, file) ? CSQ_BAD_SIZE : CSQ_UNKNOWN_FILE;
    }
    requests_lock(it);
    code = take_one(it, file, milliseconds, &batch[0]);
    *taken = code == CSQ_OK;
    share = code == CSQ_OK ? 1 + share_of(it, file) : 0;
    while (*taken < most && *taken < share && take_one(it, file, 0, &batch[*taken]) == CSQ_OK) {
        ++*taken;
    }
    return requests_return(it, code);
}

static inline uint32_t complete_one(struct csq_requests *it, struct csq_irp name, uint32_t status) {
    struct csq_ended ended;
    const uint32_t code = csq_ledger_finish(&it->ledger, name, status, &ended);
    if (code == CSQ_OK) {
        it->stats.completed++;
        it->ended++;
        requests_has_ended(it, &ended);
    }
    return code;
}

uint32_t csq_requests_complete(struct csq_requests *it, const struct csq_request *request,
                               uint32_t status) {
    requests_lock(it);
    return requests_return(it, complete_one(it, request->name, status));
}

uint32_t csq_requests_complete_many(struct csq_requests *it, const struct csq_request *batch,
                                    uint32_t count, uint32_t status, uint32_t *completed) {
    uint32_t at, code = CSQ_OK;
    requests_lock(it);
    for (at = 0; at < count && code == CSQ_OK; at++) {
        code = complete_one(it, batch[at].name, status);
    }
    *completed = code == CSQ_OK ? count : at - 1;
    return requests_return(it, code);
}

uint32_t csq_requests_put_back(struct csq_requests *it, const struct csq_request *request,
                               uint32_t front) {
    struct csq_look look = { 0, 0, 0 };
    uint32_t code;
    requests_lock(it);
    code = csq_ledger_put_back(&it->ledger, request->name, front);
    if (code == CSQ_OK) {
        it->stats.put_back++;
        csq_ledger_look(&it->ledger, request->name, &look);
        requests_was_listed(it, look.file);
    }
    return requests_return(it, code);
}

uint32_t csq_requests_is_cancelled(struct csq_requests *it, const struct csq_request *request) {
    struct csq_look look = { 0, 0, CSQ_WHY_NONE };
    requests_lock(it);
    csq_ledger_look(&it->ledger, request->name, &look);
    return requests_return(it, look.why);
}

/* ---- Looks ---- */

uint32_t csq_requests_len(struct csq_requests *it, uint32_t file, uint32_t *listed,
                          uint32_t *under_way) {
    requests_lock(it);
    return requests_return(it, csq_ledger_len(&it->ledger, file, listed, under_way));
}

uint32_t csq_requests_read_stats(struct csq_requests *it, struct csq_requests_stats *stats) {
    struct csq_requests_stats known;
    const uint32_t size = stats->size;
    if (size < 8 || size % 8 != 0) {
        return CSQ_BAD_SIZE;
    }
    requests_lock(it);
    known = it->stats;
    requests_unlock(it);
    known.size = size < sizeof known ? size : (uint32_t)sizeof known;
    memcpy(stats, &known, known.size);
    return CSQ_OK;
}
