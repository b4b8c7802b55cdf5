/* A plain C ledger of the same header as the proved one, but unproved: to time that one against,
 * and to run the tests on. Its caller's lock is held round each call, so it needs no atomic step,
 * and no queue below it: it is a pending list, and what is known of each number. */
#include "csq_ledger.h"
#include "plain_list.h"

#include <stdlib.h>

/* What is known of a number: the request that is under way by it, unless its stage is
 * CSQ_STAGE_NONE. */
struct entry {
    uint32_t life;
    uint32_t stage;
    uint32_t file;
    uint32_t why;
    bool refused; /* whether a put-back of it returned CSQ_CANCELLED */
};

struct ledger {
    struct plain_list list;
    uint32_t spent; /* how many numbers are past their last life */
    bool closed;
    struct entry *entries;
    uint32_t *under_way_of; /* by file object */
    /* A ring of the free numbers, whose size is a power of two: the one that has been free longest
     * is used next, so that all wear evenly. These two count how many were used and freed. */
    uint32_t *free_irps;
    uint32_t last_place;
    uint32_t used;
    uint32_t freed;
    /* A tournament: the leaf of a number, irps + its number, has its time, and each node above,
     * from the first on, the least of its two: 2 * node and 2 * node + 1. */
    uint64_t *dues;
};

static uint32_t under_way(const struct ledger *it) {
    return it->list.irps - it->spent - (it->freed - it->used);
}

/* ---- A ledger's beginning and end ---- */

static void free_ledger(struct ledger *it) {
    plain_list_free(&it->list);
    free(it->entries);
    free(it->under_way_of);
    free(it->free_irps);
    free(it->dues);
    free(it);
}

static bool take_memory(struct ledger *it, const struct csq_size *size, const uint32_t *limits) {
    while (it->last_place + 1 < size->irps) {
        it->last_place = 2 * it->last_place + 1;
    }
    it->entries = calloc(size->irps, sizeof *it->entries);
    it->under_way_of = calloc(size->files, sizeof *it->under_way_of);
    it->free_irps = malloc(((size_t)it->last_place + 1) * sizeof *it->free_irps);
    it->dues = malloc(2 * (size_t)size->irps * sizeof *it->dues);
    return it->entries && it->under_way_of && it->free_irps && it->dues &&
           plain_list_new(&it->list, size, limits);
}

static void begin_lives(struct ledger *it, uint32_t first) {
    for (uint32_t irp = 0; irp < it->list.irps; irp++) {
        it->entries[irp].life = first;
        it->free_irps[irp] = irp;
        it->dues[2 * irp] = it->dues[2 * irp + 1] = CSQ_NEVER;
    }
    it->freed = it->list.irps;
}

static uint32_t make(struct csq_ledger *ledger, const struct csq_size *size, const uint32_t *limits,
                     size_t count) {
    if (ledger->at) {
        return CSQ_NOT_EMPTY;
    }
    if (!plain_list_is_size(size) || (limits && !plain_list_are_limits(size, limits, count))) {
        return CSQ_BAD_SIZE;
    }
    struct ledger *it = calloc(1, sizeof *it);
    if (!it) {
        return CSQ_NO_MEMORY;
    }
    if (!take_memory(it, size, limits)) {
        free_ledger(it);
        return CSQ_NO_MEMORY;
    }
    begin_lives(it, size->first_life);
    ledger->at = it;
    return CSQ_OK;
}

uint32_t csq_ledger_new(struct csq_ledger *ledger, const struct csq_size *size) {
    return make(ledger, size, NULL, 0);
}

uint32_t csq_ledger_new_with_file_limits(struct csq_ledger *ledger, const struct csq_size *size,
                                         const uint32_t *limits, size_t count) {
    return make(ledger, size, limits, count);
}

uint32_t csq_ledger_free(struct csq_ledger *ledger) {
    struct ledger *it = ledger->at;
    if (!it) {
        return CSQ_EMPTY_HANDLE;
    }
    if (under_way(it) > 0) {
        return CSQ_HOLDING;
    }
    free_ledger(it);
    ledger->at = NULL;
    return CSQ_OK;
}

uint32_t csq_ledger_close(struct csq_ledger *ledger) {
    struct ledger *it = ledger->at;
    if (!it) {
        return CSQ_EMPTY_HANDLE;
    }
    it->closed = true;
    return CSQ_OK;
}

uint32_t csq_ledger_close_file(struct csq_ledger *ledger, uint32_t file) {
    struct ledger *it = ledger->at;
    if (!it) {
        return CSQ_EMPTY_HANDLE;
    }
    if (file >= it->list.files) {
        return CSQ_UNKNOWN_FILE;
    }
    it->list.closed[file] = true;
    return CSQ_OK;
}

/* ---- Deadlines ---- */

/* Sets the time of a number, and the least times above it. */
static void set_due(struct ledger *it, uint32_t irp, uint64_t due) {
    uint32_t node = it->list.irps + irp;
    it->dues[node] = due;
    for (node /= 2; node > 0; node /= 2) {
        uint64_t left = it->dues[2 * node], right = it->dues[2 * node + 1];
        it->dues[node] = left <= right ? left : right;
    }
}

static void clear_due(struct ledger *it, uint32_t irp) {
    if (it->dues[it->list.irps + irp] != CSQ_NEVER) {
        set_due(it, irp, CSQ_NEVER);
    }
}

/* The number with the least time. */
static uint32_t first_due(const struct ledger *it) {
    uint32_t node = 1;
    while (node < it->list.irps) {
        node = 2 * node + (it->dues[2 * node] != it->dues[node]);
    }
    return node - it->list.irps;
}

/* ---- A request's way ---- */

/* CSQ_OK if the request of this name is under way and in this stage. */
static inline uint32_t is_at(const struct ledger *it, struct csq_irp name, uint32_t stage) {
    if (!it) {
        return CSQ_EMPTY_HANDLE;
    }
    if (name.irp >= it->list.irps) {
        return CSQ_UNKNOWN_IRP;
    }
    const struct entry *entry = &it->entries[name.irp];
    return entry->stage == stage && entry->life == name.life ? CSQ_OK : CSQ_NOT_HELD;
}

/* Why nothing can be listed for a file object, or CSQ_OK. */
static uint32_t no_room(const struct ledger *it, uint32_t file) {
    if (file >= it->list.files) {
        return CSQ_UNKNOWN_FILE;
    }
    if (it->closed) {
        return CSQ_CLOSED;
    }
    if (it->used == it->freed && !it->list.closed[file]) {
        return it->spent == it->list.irps ? CSQ_LIVES_SPENT : CSQ_FULL;
    }
    return plain_list_no_room(&it->list, file);
}

uint32_t csq_ledger_begin(struct csq_ledger *ledger, uint32_t file, uint32_t front, uint64_t due,
                          struct csq_irp *name) {
    struct ledger *it = ledger->at;
    uint32_t code = it ? no_room(it, file) : (uint32_t)CSQ_EMPTY_HANDLE;
    if (code != CSQ_OK) {
        return code;
    }
    uint32_t irp = it->free_irps[it->used++ & it->last_place];
    struct entry *entry = &it->entries[irp];
    *entry = (struct entry){ entry->life, CSQ_STAGE_LISTED, file, CSQ_WHY_NONE, false };
    plain_list_insert(&it->list, irp, file, front != 0);
    it->under_way_of[file]++;
    if (due != CSQ_NEVER) {
        set_due(it, irp, due);
    }
    *name = (struct csq_irp){ irp, entry->life };
    return CSQ_OK;
}

/* Takes the first that is listed out of the list. */
static inline uint32_t take_next(struct ledger *it, uint32_t file, uint32_t stage, uint32_t why,
                                 struct csq_irp *name, uint32_t *of_file) {
    uint32_t irp = plain_list_next(&it->list, NOBODY, file);
    if (irp == NOBODY) {
        return file == CSQ_ANY || file < it->list.files ? CSQ_NONE : CSQ_UNKNOWN_FILE;
    }
    struct entry *entry = &it->entries[irp];
    plain_list_remove(&it->list, irp);
    entry->stage = stage;
    entry->why = why;
    *name = (struct csq_irp){ irp, entry->life };
    *of_file = entry->file;
    return CSQ_OK;
}

uint32_t csq_ledger_take(struct csq_ledger *ledger, uint32_t file, struct csq_irp *name,
                         uint32_t *of_file) {
    struct ledger *it = ledger->at;
    return it ? take_next(it, file, CSQ_STAGE_TAKEN, CSQ_WHY_NONE, name, of_file)
              : (uint32_t)CSQ_EMPTY_HANDLE;
}

/* Why a request that is taken can't be listed again, or CSQ_OK. */
static uint32_t no_way_back(const struct ledger *it, const struct entry *entry) {
    if (entry->refused) {
        return CSQ_NOT_REMOVED;
    }
    uint32_t code = plain_list_no_room(&it->list, entry->file);
    return code == CSQ_OK && entry->why != CSQ_WHY_NONE ? (uint32_t)CSQ_CANCELLED : code;
}

uint32_t csq_ledger_put_back(struct csq_ledger *ledger, struct csq_irp name, uint32_t front) {
    struct ledger *it = ledger->at;
    uint32_t code = is_at(it, name, CSQ_STAGE_TAKEN);
    if (code != CSQ_OK) {
        return code;
    }
    struct entry *entry = &it->entries[name.irp];
    code = no_way_back(it, entry);
    if (code == CSQ_OK) {
        plain_list_insert(&it->list, name.irp, entry->file, front != 0);
        entry->stage = CSQ_STAGE_LISTED;
    } else if (code == CSQ_CANCELLED) {
        entry->refused = true;
    }
    return code;
}

/* Ends a request, and begins the next life of its number. */
static inline void release(struct ledger *it, uint32_t irp, struct csq_ended *ended) {
    struct entry *entry = &it->entries[irp];
    clear_due(it, irp);
    entry->stage = CSQ_STAGE_NONE;
    if (entry->life < CSQ_LAST_LIFE) {
        entry->life++;
        it->free_irps[it->freed++ & it->last_place] = irp;
    } else {
        it->spent++;
    }
    ended->file = entry->file;
    ended->file_is_quiet = --it->under_way_of[entry->file] == 0;
    ended->all_are_quiet = under_way(it) == 0;
}

uint32_t csq_ledger_finish(struct csq_ledger *ledger, struct csq_irp name, uint32_t status,
                           struct csq_ended *ended) {
    struct ledger *it = ledger->at;
    uint32_t code = is_at(it, name, CSQ_STAGE_TAKEN);
    if (code != CSQ_OK) {
        return code;
    }
    if (it->entries[name.irp].refused && status != CSQ_STATUS_CANCELLED) {
        return CSQ_NOT_REMOVED;
    }
    if (status == CSQ_STATUS_PENDING) {
        return CSQ_NOT_FINAL;
    }
    release(it, name.irp, ended);
    return CSQ_OK;
}

/* ---- Ends without a worker ---- */

static bool is_why(uint32_t why) {
    return CSQ_WHY_CANCEL <= why && why <= CSQ_WHY_DUE;
}

/* Names a request that is listed or taken: one that is listed is ending then. */
static void mark(struct ledger *it, uint32_t irp, uint32_t why) {
    struct entry *entry = &it->entries[irp];
    if (entry->stage == CSQ_STAGE_LISTED) {
        plain_list_remove(&it->list, irp);
        clear_due(it, irp);
        entry->stage = CSQ_STAGE_ENDING;
    }
    entry->why = entry->why == CSQ_WHY_NONE ? why : entry->why;
}

uint32_t csq_ledger_cancel(struct csq_ledger *ledger, struct csq_irp name, uint32_t why) {
    struct ledger *it = ledger->at;
    if (!it) {
        return CSQ_EMPTY_HANDLE;
    }
    if (!is_why(why)) {
        return CSQ_BAD_SIZE;
    }
    if (name.irp >= it->list.irps) {
        return CSQ_UNKNOWN_IRP;
    }
    const struct entry *entry = &it->entries[name.irp];
    if (entry->stage == CSQ_STAGE_NONE || entry->life != name.life) {
        return CSQ_STALE;
    }
    uint32_t stage = entry->stage;
    if (stage != CSQ_STAGE_ENDING) {
        mark(it, name.irp, why);
    }
    return stage == CSQ_STAGE_LISTED ? CSQ_OK : CSQ_NONE;
}

uint32_t csq_ledger_drain_next(struct csq_ledger *ledger, uint32_t file, uint32_t why,
                               struct csq_irp *name, uint32_t *of_file) {
    struct ledger *it = ledger->at;
    if (!it || !is_why(why)) {
        return it ? CSQ_BAD_SIZE : CSQ_EMPTY_HANDLE;
    }
    uint32_t code = take_next(it, file, CSQ_STAGE_ENDING, why, name, of_file);
    if (code == CSQ_OK) {
        clear_due(it, name->irp);
    }
    return code;
}

uint32_t csq_ledger_expire(struct csq_ledger *ledger, uint64_t now, struct csq_irp *name,
                           uint32_t *stage) {
    struct ledger *it = ledger->at;
    if (!it) {
        return CSQ_EMPTY_HANDLE;
    }
    if (it->dues[1] == CSQ_NEVER || it->dues[1] > now) {
        return CSQ_NONE;
    }
    uint32_t irp = first_due(it);
    *name = (struct csq_irp){ irp, it->entries[irp].life };
    clear_due(it, irp);
    mark(it, irp, CSQ_WHY_DUE);
    *stage = it->entries[irp].stage;
    return CSQ_OK;
}

uint32_t csq_ledger_end(struct csq_ledger *ledger, struct csq_irp name, struct csq_ended *ended) {
    struct ledger *it = ledger->at;
    uint32_t code = is_at(it, name, CSQ_STAGE_ENDING);
    if (code == CSQ_OK) {
        release(it, name.irp, ended);
    }
    return code;
}

/* ---- Looks ---- */

uint32_t csq_ledger_next_due(const struct csq_ledger *ledger, uint64_t *due) {
    const struct ledger *it = ledger->at;
    if (!it) {
        return CSQ_EMPTY_HANDLE;
    }
    if (it->dues[1] == CSQ_NEVER) {
        return CSQ_NONE;
    }
    *due = it->dues[1];
    return CSQ_OK;
}

uint32_t csq_ledger_look(const struct csq_ledger *ledger, struct csq_irp name,
                         struct csq_look *look) {
    const struct ledger *it = ledger->at;
    if (!it) {
        return CSQ_EMPTY_HANDLE;
    }
    if (name.irp >= it->list.irps) {
        return CSQ_UNKNOWN_IRP;
    }
    const struct entry *entry = &it->entries[name.irp];
    *look = (struct csq_look){ 0, 0, 0 };
    if (entry->stage != CSQ_STAGE_NONE && entry->life == name.life) {
        *look = (struct csq_look){ entry->stage, entry->file, entry->why };
    }
    return CSQ_OK;
}

uint32_t csq_ledger_len(const struct csq_ledger *ledger, uint32_t file, uint32_t *listed,
                        uint32_t *under_way_now) {
    const struct ledger *it = ledger->at;
    if (!it) {
        return CSQ_EMPTY_HANDLE;
    }
    if (file != CSQ_ANY && file >= it->list.files) {
        return CSQ_UNKNOWN_FILE;
    }
    *listed = file == CSQ_ANY ? it->list.length : it->list.file_lengths[file];
    *under_way_now = file == CSQ_ANY ? under_way(it) : it->under_way_of[file];
    return CSQ_OK;
}
