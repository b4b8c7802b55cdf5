/* A model of csq_requests.h and of csq_ledger.h, made from their comments alone, what is drawn for
 * their calls, and what is said where an answer differs. */
#ifndef REQUESTS_MODEL_H
#define REQUESTS_MODEL_H

#define _POSIX_C_SOURCE 200809L
#include "csq_requests.h"

#include <stdio.h>
#include <stdlib.h>
#include <string.h>

enum { QUEUES = 3, MOST_IRPS = 9, MOST_FILES = 4, DEEPEST = 2, DRAINS = 3, ALL = MOST_FILES };

/* What out parameters hold before a call, to see whether it wrote them. */
#define UNWRITTEN UINT32_C(0xABABABAB)

struct entry {
    struct csq_irp name;
    uint32_t file;
    void *value;
    enum csq_stage stage;
    uint32_t why;  /* why it is ending, or what has named it first that is taken */
    uint32_t kept; /* 1 once its put-back returned CSQ_CANCELLED */
    uint64_t due;  /* in a queue no two have the same, but CSQ_NEVER */
};

/* What the running call of a queue ends, with which cause and word: a request by its name, those
 * that are due, or what is listed for a file object. */
struct ending {
    const struct csq_irp *name;
    uint32_t is_due;
    uint32_t file;
    uint32_t is_started; /* 1 if it is what was submitted or put back while a drain isn't over */
    uint32_t why;
    void *word;
    struct csq_irp now; /* the request whose events it is between, if there is one */
    uint32_t is_between;
};

/* A drain that was started, and whether it is over and the caller isn't told yet. */
struct drain {
    struct csq_quiet quiet;
    uint32_t is_on, is_over;
    unsigned long began; /* the start with this number */
};

/* An eventfd, and whether it is readable. */
struct event_fd {
    uint32_t is_there, readable;
    int number;
};

struct model {
    struct csq_requests *real; /* NULL: there is no queue */
    struct csq_ledger ledger;  /* of ledger_model.c, and there in its place */
    struct csq_size size;
    uint32_t has_before, has_after; /* which events */
    uint32_t closed;
    uint32_t file_limits[MOST_FILES];
    uint32_t file_closed[MOST_FILES];
    uint32_t telling[MOST_FILES + 1]; /* how many after_completion run, of each, and of all */
    struct entry entries[MOST_IRPS + 1]; /* what is listed first, in its order */
    uint32_t count;
    uint32_t lives[MOST_IRPS]; /* of the next request of each IRP */
    uint32_t free_irps[MOST_IRPS]; /* the one that is next first */
    uint32_t free_count;
    uint32_t spent;
    uint64_t now;
    struct ending *ending;
    struct drain drains[DRAINS];
    struct event_fd listed_fds[MOST_FILES + 1], room_fds[MOST_FILES + 1];
    struct csq_requests_stats stats;
};

static struct model models[QUEUES];
static uint64_t seed, drawn;
static unsigned long calls_made, codes_seen[CSQ_OTHER_QUEUE + 1];
static uint32_t depth;
static const char *call_name = "";

#define EACH(rows) (size_t at = 0; at < sizeof(rows) / sizeof *(rows); at++)

/* ---- What differs, and what is drawn ---- */

static inline void differ(const char *what, const char *got, const char *want) {
    printf("FAILED seed %lu, call %lu, %s, %u deep: %s is %s, not %s\n", (unsigned long)seed,
           calls_made, call_name, depth, what, got, want);
    exit(1);
}

static inline void code_is(uint32_t got, uint32_t want) {
    codes_seen[want]++;
    if (got != want) {
        differ("the code", csq_name(got), csq_name(want));
    }
}

static inline void number_is(const char *what, unsigned long got, unsigned long want) {
    char texts[2][24];
    if (got != want) {
        snprintf(texts[0], sizeof texts[0], "%lu", got);
        snprintf(texts[1], sizeof texts[1], "%lu", want);
        differ(what, texts[0], texts[1]);
    }
}

static inline void name_is(struct csq_irp got, struct csq_irp want) {
    number_is("the IRP", got.irp, want.irp);
    number_is("its life", got.life, want.life);
}

static inline void pointer_is(const char *what, const void *got, const void *want) {
    number_is(what, (unsigned long)(uintptr_t)got, (unsigned long)(uintptr_t)want);
}

/* Each code has to come up: otherwise the draws leave out what they are for. */
static inline void each_code_was_seen(void) {
    static const enum csq_code codes[] = {
        CSQ_OK,        CSQ_UNKNOWN_IRP, CSQ_UNKNOWN_FILE, CSQ_FILE_CLOSED, CSQ_FULL,
        CSQ_FILE_FULL, CSQ_CANCELLED,   CSQ_NONE,         CSQ_STALE,       CSQ_LIVES_SPENT,
        CSQ_NOT_HELD,  CSQ_NOT_REMOVED, CSQ_NOT_FINAL,    CSQ_HOLDING,     CSQ_BAD_SIZE,
        CSQ_NOT_EMPTY, CSQ_CLOSED
    };
    for EACH(codes) {
        if (codes_seen[codes[at]] == 0) {
            differ(csq_name(codes[at]), "never seen", "left out");
        }
    }
}

/* A number below this one (xorshift). */
static inline uint32_t draw(uint32_t below) {
    drawn ^= drawn << 13;
    drawn ^= drawn >> 7;
    drawn ^= drawn << 17;
    return (uint32_t)(drawn >> 24) % below;
}

static inline uint32_t one_in(uint32_t count) { return draw(count) == 0; }

/* Mostly a number below this one; seldom one that isn't. */
static inline uint32_t draw_number(uint32_t below) {
    static const uint32_t wrong[] = { UINT32_MAX - 1, 0x80000000u, 65536, 16384 };
    if (one_in(20)) {
        return one_in(2) ? below : wrong[draw(4)];
    }
    return draw(below);
}

/* A file object, or any. */
static inline uint32_t draw_file(const struct model *it) {
    return one_in(3) ? CSQ_ANY : draw_number(it->size.files);
}

/* The name of a request that is under way, of one before or after it, or of none. */
static inline struct csq_irp draw_name(const struct model *it) {
    struct csq_irp name = { draw_number(it->size.irps), draw(3) };
    if (it->count > 0 && !one_in(4)) {
        name = it->entries[one_in(2) ? it->count - 1 : draw(it->count)].name;
    } else if (name.irp < it->size.irps) {
        name.life = it->lives[name.irp];
    }
    if (one_in(8)) {
        name.life += one_in(2) ? 1 : UINT32_MAX;
    }
    return name;
}

static inline uint32_t draw_status(void) {
    static const uint32_t statuses[] = { CSQ_STATUS_SUCCESS, CSQ_STATUS_CANCELLED,
                                         CSQ_STATUS_PENDING, CSQ_STATUS_FILE_CLOSED };
    return statuses[draw(4)];
}

/* A size, which is seldom a wrong one. Returns whether it is right. */
static inline uint32_t draw_size(struct csq_size *size) {
    uint32_t *const numbers[] = { &size->irps, &size->files, &size->limit, &size->first_life,
                                  &size->list };
    static const uint32_t too_large[] = { 65536, 16385, MOST_IRPS + 1, 0x40000000, 3 };
    const uint32_t at = draw(5), is_wrong = one_in(8);
    size->irps = 1 + draw(MOST_IRPS);
    size->files = 1 + draw(MOST_FILES);
    size->limit = 1 + draw(size->irps);
    size->passes = draw(3);
    size->first_life = one_in(2) ? 0 : CSQ_LAST_LIFE - draw(40);
    size->list = draw(3);
    if (is_wrong) {
        *numbers[at] = at < 3 && one_in(2) ? 0 : too_large[at];
    }
    return !is_wrong;
}

/* Limits of the file objects, seldom wrong ones. Returns whether they are right. */
static inline uint32_t draw_limits(const struct csq_size *size, uint32_t limits[MOST_FILES]) {
    for (uint32_t file = 0; file < MOST_FILES; file++) {
        limits[file] = 1 + draw(size->irps);
    }
    if (!one_in(16)) {
        return 1;
    }
    limits[draw(size->files)] = one_in(2) ? 0 : size->irps + 1;
    return 0;
}

/* ---- The model ---- */

static inline uint32_t knows(const struct model *it, uint32_t file) {
    return file == CSQ_ANY || file < it->size.files;
}

/* The place of a file object, or of all for CSQ_ANY. */
static inline uint32_t place(uint32_t file) { return file == CSQ_ANY ? (uint32_t)ALL : file; }

static inline uint32_t is_of(const struct entry *entry, uint32_t file) {
    return file == CSQ_ANY || entry->file == file;
}

/* How many are under way for a file object, or are listed. */
static inline uint32_t count_of(const struct model *it, uint32_t file, uint32_t listed_alone) {
    uint32_t count = 0;
    for (uint32_t at = 0; at < it->count; at++) {
        const struct entry *entry = &it->entries[at];
        count += is_of(entry, file) && (!listed_alone || entry->stage == CSQ_STAGE_LISTED);
    }
    return count;
}

static inline struct entry *find(struct model *it, struct csq_irp name) {
    for (uint32_t at = 0; at < it->count; at++) {
        struct entry *entry = &it->entries[at];
        if (entry->name.irp == name.irp && entry->name.life == name.life) {
            return entry;
        }
    }
    return NULL;
}

static inline struct entry *first_listed(struct model *it, uint32_t file) {
    for (uint32_t at = 0; at < it->count; at++) {
        struct entry *entry = &it->entries[at];
        if (entry->stage == CSQ_STAGE_LISTED && is_of(entry, file)) {
            return entry;
        }
    }
    return NULL;
}

/* The one that is due first, of those that are in this stage or in any. */
static inline struct entry *first_due(struct model *it, enum csq_stage stage) {
    struct entry *first = NULL;
    for (uint32_t at = 0; at < it->count; at++) {
        struct entry *entry = &it->entries[at];
        if (entry->due != CSQ_NEVER && (stage == CSQ_STAGE_NONE || entry->stage == stage) &&
            (!first || entry->due < first->due)) {
            first = entry;
        }
    }
    return first;
}

static inline struct entry take_out(struct model *it, struct entry *entry) {
    struct entry out = *entry;
    it->count--;
    memmove(entry, entry + 1, (size_t)(&it->entries[it->count] - entry) * sizeof *entry);
    return out;
}

static inline void put_at(struct model *it, uint32_t at, struct entry entry) {
    memmove(&it->entries[at + 1], &it->entries[at], (it->count - at) * sizeof entry);
    it->entries[at] = entry;
    it->count++;
}

/* The drain that was started last for a file object, or else for any, and isn't over. */
static inline const struct drain *drain_of(const struct model *it, uint32_t file) {
    const struct drain *last = NULL;
    for (uint32_t at = 0; at < DRAINS; at++) {
        const struct drain *drain = &it->drains[at];
        const uint32_t of = drain->quiet.file;
        if (!drain->is_on || drain->is_over || (of != file && of != CSQ_ANY)) {
            continue;
        }
        if (!last || (of == last->quiet.file ? drain->began > last->began : of == file)) {
            last = drain;
        }
    }
    return last;
}

/* The drains of what is quiet are over. */
static inline void end_drains(struct model *it) {
    for (uint32_t at = 0; at < DRAINS; at++) {
        struct drain *drain = &it->drains[at];
        drain->is_over |= drain->is_on && count_of(it, drain->quiet.file, 0) == 0 &&
                          it->telling[place(drain->quiet.file)] == 0;
    }
}

/* Lists it. Its eventfds are readable then, unless a drain ends it. */
static inline void list(struct model *it, struct entry entry, uint32_t front) {
    entry.stage = CSQ_STAGE_LISTED;
    put_at(it, front ? 0 : count_of(it, CSQ_ANY, 1), entry);
    if (!drain_of(it, entry.file)) {
        it->listed_fds[entry.file].readable = it->listed_fds[ALL].readable = 1;
    }
}

/* Out of the list, for a worker or for what ends it: there may be room then. */
static inline struct entry *move(struct model *it, struct entry *entry, enum csq_stage stage,
                                 uint32_t why) {
    struct entry moved = take_out(it, entry);
    moved.stage = stage;
    moved.why = why;
    moved.due = stage == CSQ_STAGE_ENDING ? CSQ_NEVER : moved.due;
    put_at(it, it->count, moved);
    it->room_fds[moved.file].readable = 1;
    it->room_fds[ALL].readable |= it->count < it->size.irps;
    return &it->entries[it->count - 1];
}

/* It isn't under way any more, and its IRP is in its next life. */
static inline void end(struct model *it, struct entry *entry) {
    const struct entry ended = take_out(it, entry);
    const uint32_t irp = ended.name.irp;
    if (ended.stage == CSQ_STAGE_ENDING) {
        it->stats.ended[ended.why]++;
    } else {
        it->stats.completed++;
    }
    if (it->lives[irp]++ == CSQ_LAST_LIFE) {
        it->spent++;
    } else {
        it->free_irps[it->free_count++] = irp;
    }
    it->room_fds[ALL].readable = 1;
    end_drains(it);
}

/* ---- What calls return, and do ---- */

/* A queue of the model that begins. */
static inline void begin_queue(struct model *it, const struct csq_size *size,
                               const uint32_t *limits) {
    it->size = *size;
    it->free_count = size->irps;
    for (uint32_t irp = 0; irp < size->irps; irp++) {
        it->free_irps[irp] = irp;
        it->lives[irp] = size->first_life;
    }
    for (uint32_t file = 0; file < size->files; file++) {
        it->file_limits[file] = limits ? limits[file] : size->irps;
    }
}

/* What a begin returns for a file object: the first cause. */
static inline uint32_t code_of_begin(const struct model *it, uint32_t file) {
    if (file >= it->size.files) {
        return CSQ_UNKNOWN_FILE;
    } else if (it->closed) {
        return CSQ_CLOSED;
    } else if (it->file_closed[file]) {
        return CSQ_FILE_CLOSED;
    } else if (it->spent == it->size.irps) {
        return CSQ_LIVES_SPENT;
    } else if (it->free_count == 0) {
        return CSQ_FULL;
    } else if (count_of(it, file, 1) >= it->file_limits[file]) {
        return CSQ_FILE_FULL;
    }
    return count_of(it, CSQ_ANY, 1) >= it->size.limit ? CSQ_FULL : CSQ_OK;
}

/* Lists a new request under the IRP that has been free longest. */
static inline struct csq_irp begin(struct model *it, uint32_t file, uint32_t front, uint64_t due,
                                   void *value) {
    struct entry entry = { .file = file, .value = value, .due = due };
    entry.name.irp = it->free_irps[0];
    entry.name.life = it->lives[entry.name.irp];
    memmove(it->free_irps, it->free_irps + 1, --it->free_count * sizeof *it->free_irps);
    list(it, entry, front);
    return entry.name;
}

/* Ends a request that is taken. Returns the code. */
static inline uint32_t finish(struct model *it, struct csq_irp name, uint32_t status) {
    struct entry *entry = find(it, name);
    if (name.irp >= it->size.irps) {
        return CSQ_UNKNOWN_IRP;
    } else if (!entry || entry->stage != CSQ_STAGE_TAKEN) {
        return CSQ_NOT_HELD;
    } else if (status != CSQ_STATUS_CANCELLED && entry->kept) {
        return CSQ_NOT_REMOVED;
    } else if (status == CSQ_STATUS_PENDING) {
        return CSQ_NOT_FINAL;
    }
    end(it, entry);
    return CSQ_OK;
}

/* Lists a request again that is taken. Returns the code. */
static inline uint32_t put_back(struct model *it, struct csq_irp name, uint32_t front) {
    struct entry *entry = find(it, name);
    if (name.irp >= it->size.irps) {
        return CSQ_UNKNOWN_IRP;
    } else if (!entry || entry->stage != CSQ_STAGE_TAKEN) {
        return CSQ_NOT_HELD;
    } else if (entry->kept) {
        return CSQ_NOT_REMOVED;
    } else if (it->file_closed[entry->file]) {
        return CSQ_FILE_CLOSED;
    } else if (count_of(it, entry->file, 1) >= it->file_limits[entry->file]) {
        return CSQ_FILE_FULL;
    } else if (count_of(it, CSQ_ANY, 1) >= it->size.limit) {
        return CSQ_FULL;
    }
    entry->kept = entry->why != CSQ_WHY_NONE;
    if (entry->kept) {
        return CSQ_CANCELLED;
    }
    it->stats.put_back++;
    list(it, take_out(it, entry), front);
    return CSQ_OK;
}

/* Names a request that isn't listed. Returns the code of its cancel: CSQ_OK if it is listed. */
static inline uint32_t cancel(struct model *it, struct csq_irp name, uint32_t why) {
    struct entry *entry = find(it, name);
    if (name.irp >= it->size.irps) {
        return CSQ_UNKNOWN_IRP;
    } else if (!entry) {
        return CSQ_STALE;
    } else if (entry->stage == CSQ_STAGE_LISTED) {
        return CSQ_OK;
    }
    entry->why = entry->why ? entry->why : why;
    return CSQ_NONE;
}

/* ---- What the calls of csq_requests.h end ---- */

/* Names what is taken and was due before this one: all that is due, if there is none. */
static inline void name_due(struct model *it, const struct entry *before) {
    struct entry *entry;
    while ((entry = first_due(it, CSQ_STAGE_TAKEN)) != NULL && entry->due <= it->now &&
           (!before || entry->due < before->due)) {
        entry->due = CSQ_NEVER;
        entry->why = entry->why ? entry->why : (uint32_t)CSQ_WHY_DUE;
    }
}

/* The first request that the running call ends, or the next, and why. */
static inline struct entry *next_to_end(struct model *it) {
    struct ending *ending = it->ending;
    struct entry *entry;
    if (ending->is_due) {
        entry = first_due(it, CSQ_STAGE_LISTED);
        return entry && entry->due <= it->now ? entry : NULL;
    }
    if (ending->is_started) {
        const struct drain *drain = drain_of(it, ending->file);
        ending->why = drain ? drain->quiet.why : (uint32_t)CSQ_WHY_NONE;
        ending->word = drain ? drain->quiet.word : NULL;
        return drain ? first_listed(it, ending->file) : NULL;
    }
    entry = ending->name ? find(it, *ending->name) : first_listed(it, ending->file);
    return entry && entry->stage == CSQ_STAGE_LISTED ? entry : NULL;
}

/* The running call ends it now. */
static inline struct entry *expected(struct model *it, struct entry *entry) {
    const struct csq_irp name = entry->name;
    if (it->ending->is_due) {
        name_due(it, entry);
    }
    return move(it, find(it, name), CSQ_STAGE_ENDING, it->ending->why);
}

/* What a call of a queue without events ends: no other call comes in between. */
static inline void end_at_once(struct model *it) {
    struct entry *entry;
    while (!it->has_before && !it->has_after && (entry = next_to_end(it)) != NULL) {
        entry = expected(it, entry);
        end(it, entry);
    }
}

#endif
