/* What the driver writes while it answers a peek that only iocsq asks for is undone afterwards. So
 * a peek that does more than return an IRP, as to note that the device is idle now, has done no
 * more in the end than the framework has it do. The queue's lock is held, under which nobody else
 * looks at such notes. Interlocked calls aren't undone, since others may make them meanwhile; nor
 * are calls of the system. Writes above a limit aren't either: they are counted, and the table of a
 * run and each report say so. */
#include "internal.h"

#include <stdlib.h>

enum { WRITES = 1024, PLACES = 2 * WRITES, WIDEST = 16 }; /* WIDEST: bytes */

/* What was at an address before it was first written to. */
struct write {
    uintptr_t at;
    size_t size;
    unsigned char before[WIDEST];
};
struct iocsq_writes {
    uint32_t count;
    struct write kept[WRITES];
    uint16_t places[PLACES]; /* by its address: 1 + which of them; 0: none */
};
static _Atomic uint64_t not_undone;

uint64_t iocsq_count_not_undone(void) {
    return not_undone;
}

static bool is_of_frames(const struct iocsq_undo *undo, uintptr_t at) {
    uintptr_t here = (uintptr_t)__builtin_frame_address(0); /* the stack grows downwards */
    return at >= here && at < undo->frame;
}

void iocsq_begin_undo(struct iocsq_undo *undo, const void *frame) {
    undo->frame = (uintptr_t)frame;
    undo->writes = NULL;
    iocsq_own.undo = undo;
}

/* The place of a write that is kept, or the free one that would be its place. */
static uint16_t *place_of(struct iocsq_writes *w, uintptr_t at, size_t size) {
    size_t place = (at >> 2 ^ at >> 12) % PLACES;
    const struct write *kept;
    while (w->places[place] > 0) {
        kept = &w->kept[w->places[place] - 1];
        if (kept->at == at && kept->size == size) {
            break;
        }
        place = (place + 1) % PLACES;
    }
    return &w->places[place];
}

static void keep(struct iocsq_writes *w, uintptr_t at, size_t size) {
    uint16_t *place = place_of(w, at, size);
    if (*place > 0) {
        return;
    }
    if (w->count == WRITES) {
        not_undone++;
        return;
    }
    struct write *write = &w->kept[w->count++];
    write->at = at;
    write->size = size;
    memcpy(write->before, (const void *)at, size);
    *place = (uint16_t)w->count;
}

static struct iocsq_writes *writes_of(struct iocsq_undo *undo) {
    if (!undo->writes) {
        undo->writes = calloc(1, sizeof *undo->writes);
    }
    if (!undo->writes) {
        iocsq_fail("no memory for what a peek writes");
    }
    return undo->writes;
}

void iocsq_note_write(const volatile void *at, size_t size) {
    struct iocsq_undo *undo = iocsq_own.undo;
    if (!undo || is_of_frames(undo, (uintptr_t)at)) {
        return;
    }
    for (size_t done = 0; done < size; done += WIDEST) {
        keep(writes_of(undo), (uintptr_t)at + done, size - done < WIDEST ? size - done : WIDEST);
    }
}

/* The last one first, since they may overlap. */
void iocsq_end_undo(struct iocsq_undo *undo) {
    struct iocsq_writes *w = undo->writes;
    iocsq_own.undo = NULL;
    while (w && w->count > 0) {
        const struct write *write = &w->kept[--w->count];
        memcpy((void *)write->at, write->before, write->size);
    }
    free(w);
}
