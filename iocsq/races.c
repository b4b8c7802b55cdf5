/* Data races of the driver: two accesses to one byte by different parts (traces.h), one of them a
 * write, that no call of the WDK orders. Each run is checked as it is made, so a race is told also
 * in a run in which the two came one long after the other.
 *
 * No report are:
 * - accesses that are meant to be without a lock, as interlocked calls, ReadNoFence and volatile,
 *   among each other; and such a read beside a plain write.
 * - plain reads of a flag that is written once while others use it, as one that stops a thread, or
 *   an address that an interlocked call publishes.
 * The places of such plain accesses become points at which others may come between, in all runs: so
 * what follows from either order is tried. */
#define _GNU_SOURCE
#include "internal.h"
#include "keys.h"


enum { RECORDS = 12, PROMOTED = 64, CELL = 8, WHOLE = 4096, FRAMES = 48 };
enum level { NONE, CHECKS, POINTS, UNREPORTED };

struct record {
    const void *place;
    uint32_t when, thread;
    uint16_t part;
    uint8_t bytes, how;
};
/* The accesses to eight bytes. */
struct cell {
    uint32_t count;
    uint8_t written, rewritten; /* bytes, once and more than once, since others used them */
    struct record records[RECORDS];
};
/* The first of a run. It is reported at the next point of its thread, and not in the middle of
 * IoCompleteRequest: so another report comes before, if what the driver does next is wrong in
 * itself. */
struct found {
    char text[120]; /* empty: there is none */
    uint32_t thread;
    uintptr_t other;
    int frame_count;
    void *frames[FRAMES];
};
/* Outside of the variables that each run begins with anew. */
struct races {
    struct found found;
    uint32_t promoted_count; /* of all runs */
    struct promoted {
        uintptr_t place;
        uint32_t run; /* the last in which the driver came to it */
    } promoted[PROMOTED];
    struct iocsq_keys keys; /* of cells */
    struct cell cells[IOCSQ_KEYS];
};
static struct races *races; /* null: nothing is checked */
static ULONG level;

VOID IocsqRaces(ULONG Level) {
    level = Level;
}

bool iocsq_checks_races(void) {
    return races != NULL;
}

/* Of a driver that says where it reads and writes, in turns. */
void iocsq_begin_races(void) {
    if (level == NONE || !iocsq_sees_accesses()) {
        return;
    }
    iocsq_begin_traces();
    races = iocsq_map(sizeof *races, "no memory for the driver's accesses");
}

/* ---- Cells ---- */
/* Null: there is none, or too many: then this one isn't watched. */
static struct cell *cell_at(uint64_t at, bool makes) {
    uint32_t before = races->keys.count;
    uint32_t number = iocsq_number_of_key(&races->keys, at, iocsq_mix(at, 11), makes);
    struct cell *c = &races->cells[number];
    if (races->keys.count > before) {
        c->count = 0;
        c->written = c->rewritten = 0;
    }
    return number < IOCSQ_FIRST_NUMBER ? NULL : c;
}

/* The bytes of a range that lie in the cell of this number. */
static uint8_t bytes_in(uint64_t cell, uint64_t from, uint64_t to) {
    uint64_t first = cell * CELL, end = first + CELL;
    unsigned bytes = 0xFF;
    bytes = first < from ? bytes << (from - first) & 0xFF : bytes;
    return (uint8_t)(end > to ? bytes & 0xFF >> (end - to) : bytes);
}

/* ---- Places that are points ---- */
static uintptr_t offset_of(const void *place) {
    return (uintptr_t)place - (uintptr_t)IOCSQ_PROGRAM;
}

/* Null: it isn't one. */
static struct promoted *find_promoted(uintptr_t place) {
    for (uint32_t at = 0; at < races->promoted_count; at++) {
        if (races->promoted[at].place == place) {
            return &races->promoted[at];
        }
    }
    return NULL;
}

void iocsq_promote(uintptr_t place) {
    if (!races) {
        iocsq_fail("the schedule names a place (at:), and the driver's accesses aren't seen");
    }
    if (races->promoted_count == PROMOTED) {
        iocsq_fail("more than %u places race with accesses on purpose", (unsigned)PROMOTED);
    }
    races->promoted[races->promoted_count++].place = place;
}

void iocsq_forget_promoted(void) {
    if (races) {
        races->promoted_count = 0;
    }
}

bool iocsq_all_met(void) {
    bool all = true;
    for (uint32_t at = 0; races && at < races->promoted_count; at++) {
        all = all && races->promoted[at].run == iocsq_run_number();
    }
    return all;
}

bool iocsq_is_point(const void *place) {
    struct promoted *found = find_promoted(offset_of(place));
    if (found && found->run != iocsq_run_number()) {
        found->run = iocsq_run_number();
        iocsq_note_place(found->place);
    }
    return found || level >= POINTS;
}

/* Whether it is one from now on. */
static bool promote(const void *place) {
    bool is_new = !find_promoted(offset_of(place));
    if (is_new) {
        iocsq_promote(offset_of(place));
    }
    return is_new;
}

/* ---- The check ---- */
static bool is_meant(unsigned how, unsigned other) {
    return (how & (IOCSQ_ATOMIC | IOCSQ_WRITES)) == IOCSQ_ATOMIC &&
           (other & (IOCSQ_ATOMIC | IOCSQ_WRITES | IOCSQ_ENDED)) == IOCSQ_WRITES;
}

static bool is_plain(unsigned how) {
    return !(how & (IOCSQ_ATOMIC | IOCSQ_ENDED));
}

/* Of a plain read and a write, which may be an interlocked call's: of the same bytes, or the write
 * came before others used them. */
static bool is_flag(const struct cell *c, const struct record *r, unsigned bytes, unsigned how) {
    unsigned read = r->how & IOCSQ_WRITES ? how : r->how;
    return is_plain(read) && !((r->how | how) & IOCSQ_ENDED) && !(r->how & how & IOCSQ_WRITES) &&
           (r->bytes == bytes || !(c->written & r->bytes & bytes)) && !(c->rewritten & bytes);
}

static const char *now_does(unsigned how) {
    if (how & IOCSQ_WRITES) {
        return how & IOCSQ_ATOMIC ? "changes" : "writes";
    }
    return how & IOCSQ_ATOMIC ? "looks at" : "reads";
}

static const char *once_did(unsigned how) {
    if (how & IOCSQ_ENDED) {
        return "freed or completed";
    }
    if (how & IOCSQ_WRITES) {
        return how & IOCSQ_ATOMIC ? "changed" : "wrote";
    }
    return how & IOCSQ_ATOMIC ? "looked at" : "read";
}

/* `call`: the one that ends the memory, or null. */
static void find_race(const struct record *r, unsigned how, const char *call) {
    struct found *f = &races->found;
    if (f->text[0] == '\0') {
        snprintf(f->text, sizeof f->text, "t%u %s%s what t%u %s%s", iocsq_thread(),
                 call ? call : now_does(how), call ? " ends" : "", r->thread, once_did(r->how),
                 r->thread == iocsq_thread() ? " in another DPC or work item" : "");
        f->thread = iocsq_thread();
        f->other = (uintptr_t)r->place;
        f->frame_count = iocsq_frames(f->frames, FRAMES);
    }
}

void iocsq_forget_race(void) {
    if (races) {
        races->found.text[0] = '\0';
        races->found.thread = 0;
        iocsq_forget_keys(&races->keys);
    }
}

void iocsq_report_race(void) {
    if (!races || races->found.thread != iocsq_thread() || iocsq_own.completes) {
        return;
    }
    iocsq_own.other_place = races->found.other;
    iocsq_own.frames = races->found.frames;
    iocsq_own.frame_count = races->found.frame_count;
    iocsq_disagree(NULL, "a data race: %s, and no call orders the two", races->found.text);
}

static bool is_race(const struct record *r, unsigned bytes, unsigned how) {
    return r->bytes & bytes && (r->how | how) & IOCSQ_WRITES && !(r->how & how & IOCSQ_ATOMIC) &&
           !iocsq_happened(r->part, r->when);
}

/* Whether there are more points from now on. */
static bool judge_race(const struct cell *c, const struct record *r, unsigned bytes, unsigned how,
                       const char *call, const void *place) {
    bool flag = is_flag(c, r, bytes, how), more = false;
    if (flag || is_meant(how, r->how)) {
        more = promote(r->place);
    }
    if (flag || (is_meant(r->how, how) && place)) {
        more = promote(place) || more;
    } else if (!is_meant(how, r->how) && level != UNREPORTED) {
        find_race(r, how, call);
    }
    return more;
}

static void check(const struct cell *c, unsigned bytes, unsigned how, const char *call,
                  const void *place) {
    bool more = false;
    for (uint32_t at = 0; at < c->count; at++) {
        const struct record *r = &c->records[at];
        if (is_race(r, bytes, how)) {
            more = judge_race(c, r, bytes, how, call, place) || more;
        }
    }
    if (more) {
        iocsq_begin_again();
    }
}

/* Bytes that others have used before: what is written before that makes the memory ready. */
static uint8_t used_by_others(const struct cell *c) {
    unsigned bytes = 0;
    for (uint32_t at = 0; at < c->count; at++) {
        bytes |= c->records[at].part != iocsq_own.part ? c->records[at].bytes : 0u;
    }
    return (uint8_t)bytes;
}

static void note_write(struct cell *c, unsigned bytes) {
    unsigned written = bytes & used_by_others(c);
    c->rewritten |= (uint8_t)(written & c->written);
    c->written |= (uint8_t)written;
}

/* A later access is enough where each race with the earlier one would be a race with it. */
static bool is_covered(const struct record *r, const struct record *by) {
    return (r->bytes & by->bytes) == r->bytes && iocsq_happened(r->part, r->when) &&
           (by->how & IOCSQ_WRITES || !(r->how & IOCSQ_WRITES)) &&
           (!(by->how & IOCSQ_ATOMIC) || r->how & IOCSQ_ATOMIC);
}

static void note(struct cell *c, struct record made) {
    for (uint32_t at = 0; at < c->count; at++) {
        if (is_covered(&c->records[at], &made)) {
            c->records[at] = made;
            return;
        }
    }
    c->records[c->count < RECORDS ? c->count++ : made.when % RECORDS] = made;
}

static void access_range(const void *at, size_t size, unsigned how, const void *place) {
    uint64_t from = (uintptr_t)at, to = from + size;
    for (uint64_t cell = from / CELL; cell * CELL < to; cell++) {
        struct cell *c = cell_at(cell, true);
        struct record made = { place,
                               iocsq_part_time(),
                               iocsq_thread(),
                               (uint16_t)iocsq_own.part,
                               bytes_in(cell, from, to),
                               (uint8_t)how };
        if (c && how & IOCSQ_WRITES) {
            note_write(c, made.bytes);
        }
        if (c) {
            check(c, made.bytes, how, NULL, place);
            note(c, made);
        }
    }
}

void iocsq_access(const void *at, size_t size, unsigned how, const void *place) {
    access_range(at, size, how, place);
}

/* ---- Memory ---- */
static void forget(struct cell *c, unsigned bytes) {
    uint8_t left = (uint8_t)~bytes;
    for (uint32_t at = 0; at < c->count; at++) {
        c->records[at].bytes &= left;
    }
    c->written &= left;
    c->rewritten &= left;
}

void iocsq_begin_memory(const void *at, size_t size) {
    uint64_t from = (uintptr_t)at, to = from + size;
    for (uint64_t cell = from / CELL; races && cell * CELL < to; cell++) {
        struct cell *c = cell_at(cell, false);
        if (c) {
            forget(c, bytes_in(cell, from, to));
        }
    }
}

/* Of large memory only what was accessed is kept as ended. */
void iocsq_end_memory(const void *at, size_t size, const char *call, const void *place) {
    uint64_t from = (uintptr_t)at, to = from + size;
    for (uint64_t cell = from / CELL; races && cell * CELL < to; cell++) {
        struct cell *c = cell_at(cell, false);
        if (c) {
            check(c, bytes_in(cell, from, to), IOCSQ_WRITES | IOCSQ_ENDED, call, NULL);
        }
    }
    if (races && size <= WHOLE) {
        access_range(at, size, IOCSQ_WRITES | IOCSQ_ENDED, place);
    }
}
