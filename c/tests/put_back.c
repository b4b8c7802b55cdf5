/* IRPs that a worker took and puts back, with a cancel before it, in between and after it. */
#include "check.h"

/* When a cancel comes: never; before the worker takes the IRP; while it has it; after it has put it
 * back. */
enum { NEVER, BEFORE, BETWEEN, AFTER, TIMES };

static void cancel_if(struct device *device, int comes, uint32_t found) {
    if (comes) {
        IS(mark(device, 2, 0, 0), found);
    }
}

static void counts_are(struct device *device, int pass, uint32_t listed, uint32_t holds) {
    uint32_t len = UNWRITTEN, held = UNWRITTEN, owed = UNWRITTEN;
    IS(csq_len(&device->queue, &len), CSQ_OK);
    IS(len, listed);
    IS(csq_file_len(&device->queue, 0, &len), CSQ_OK);
    IS(len, listed);
    IS(csq_count_held(&device->passes[pass], &held, &owed), CSQ_OK);
    IS(held, holds);
    IS(owed, 0);
}

/* The worker takes the IRP, unless its canceller has it, and puts it back. Then it is left lying:
 * its canceller takes it, or, where no cancel came, a removal. */
static void take_and_put_back(struct device *device, uint32_t when, uint32_t front) {
    static const uint32_t codes[TIMES] = { CSQ_OK, CSQ_NOT_HELD, CSQ_CANCELLED, CSQ_OK };
    struct csq_irp irp = irp_in(0, 0);
    int worker = 1, canceller = 2;
    IS(put(device, 0, 0, 0), CSQ_OK);
    cancel_if(device, when == BEFORE, 1);
    IS(take(device, worker, CSQ_ANY), when == BEFORE ? CSQ_ANY : 0);
    cancel_if(device, when == BETWEEN, 0);
    IS(put_back(device, worker, irp, front), codes[when]);
    counts_are(device, worker, when != BETWEEN, when == BETWEEN);
    cancel_if(device, when == AFTER, 1);
    if (when == BETWEEN) {
        IS(csq_complete(&device->passes[worker], irp, 0), CSQ_NOT_REMOVED);
        IS(put_back(device, worker, irp, front), CSQ_NOT_REMOVED);
        IS(csq_complete_cancelled(&device->passes[worker], irp), CSQ_OK);
    } else if (when != NEVER) {
        IS(take(device, worker, 0), CSQ_ANY);
        IS(csq_cancel_owed(&device->queue, &device->passes[canceller], irp), CSQ_OK);
    } else {
        IS(take(device, worker, 0), 0);
        IS(csq_complete(&device->passes[worker], irp, 0), CSQ_OK);
    }
    counts_are(device, worker, 0, 0);
    status_of(device, 0, when == NEVER ? CSQ_STATUS_SUCCESS : CSQ_STATUS_CANCELLED);
    IS(mark(device, 3, 0, 0), 0);
}

static void no_cancel_is_lost_whenever_it_comes(uint32_t list) {
    for (uint32_t row = 0; row < 2 * TIMES; row++) {
        struct device device = device_of(size_of(1, 1, list));
        take_and_put_back(&device, row / 2, row % 2);
        end(&device);
    }
}

/* Three workers take it and put it back in turns. A worker that has put it back has nothing of it
 * any more, and the context of its insert still names it. */
static void another_worker_goes_on_with_it(uint32_t list) {
    struct device device = device_of(size_of(2, 1, list));
    struct csq_irp irp = irp_in(0, 0);
    put(&device, 0, 0, 0);
    for (uint32_t turn = 0; turn < 60; turn++) {
        int by = (int)(turn % 3), next = (by + 1) % 3;
        IS(take(&device, by, 0), 0);
        counts_are(&device, by, 0, 1);
        IS(put_back(&device, next, irp, 0), CSQ_NOT_HELD);
        IS(put_back(&device, by, irp, turn % 2), CSQ_OK);
        IS(put_back(&device, by, irp, 0), CSQ_NOT_HELD);
        counts_are(&device, by, 1, 0);
        IS(csq_complete(&device.passes[by], irp, 0), CSQ_NOT_HELD);
        IS(csq_complete_cancelled(&device.passes[by], irp), CSQ_NOT_HELD);
        IS(put(&device, by, 0, 0), CSQ_NOT_HOME);
    }
    IS(csq_give_back(&device.queue, &device.passes[2]), CSQ_OK);
    IS(csq_remove(&device.queue, &device.passes[0], irp), CSQ_OK);
    /* A cancel that comes then is found by the next put-back, also after one that is refused. */
    IS(mark(&device, 1, 0, 0), 0);
    IS(put_back(&device, 1, irp, 0), CSQ_NOT_HELD);
    IS(put_back(&device, 0, irp, 1), CSQ_CANCELLED);
    IS(csq_complete_cancelled(&device.passes[0], irp), CSQ_OK);
    status_of(&device, 0, CSQ_STATUS_CANCELLED);
    end(&device);
}

/* The list is 0 (file object 0), 1 (1), 2 (0), 3 (1); one is taken, and put back. */
struct placed {
    uint32_t irp, front, order[4];
};

static void it_stands_at_the_front_or_at_the_end(uint32_t list) {
    static const struct placed rows[] = {
        { 0, 1, { 0, 1, 2, 3 } },        { 0, 0, { 1, 2, 3, 0 } }, { 1, 1, { 1, 0, 2, 3 } },
        { 2, 1u << 31, { 2, 0, 1, 3 } }, { 2, 0, { 0, 1, 3, 2 } }, { 3, 0, { 0, 1, 2, 3 } },
        { 3, 1, { 3, 0, 1, 2 } },
    };
    for (size_t row = 0; row < sizeof rows / sizeof *rows; row++) {
        struct device device = device_of(size_of(4, 2, list));
        struct csq_irp irp = irp_in(rows[row].irp, 0);
        for (uint32_t at = 0; at < 4; at++) {
            put(&device, 0, at, at % 2);
        }
        IS(csq_remove(&device.queue, &device.passes[0], irp), CSQ_OK);
        IS(put_back(&device, 0, irp, rows[row].front), CSQ_OK);
        for (size_t at = 0; at < 4; at++) {
            uint32_t next = rows[row].order[at];
            /* In the order of all, and for its file object. */
            IS(take(&device, 1, at % 2 ? CSQ_ANY : next % 2), next);
        }
        end(&device);
    }
}

/* IRP 0 was removed, 1 is listed, 2 was got cancelled by its insert and 3 by its cancel routine, 4
 * is owed, 5 was completed, 6 is another pass's, and 7 is home. */
static struct device device_of_each(uint32_t list) {
    struct device device = device_of(size_of(8, 1, list));
    IS(mark(&device, 0, 2, 0), 0);
    for (uint32_t irp = 0; irp < 7; irp++) {
        IS(put(&device, 0, irp, 0), irp == 2 ? CSQ_CANCELLED : CSQ_OK);
    }
    for (uint32_t irp = 3; irp < 5; irp++) {
        IS(mark(&device, 0, irp, 0), 1);
    }
    IS(csq_cancel_routine(&device.queue, &device.passes[0], irp_in(3, 0)), CSQ_OK);
    IS(csq_remove(&device.queue, &device.passes[0], irp_in(0, 0)), CSQ_OK);
    IS(csq_remove(&device.queue, &device.passes[0], irp_in(5, 0)), CSQ_OK);
    IS(csq_complete(&device.passes[0], irp_in(5, 0), 0), CSQ_OK);
    IS(csq_remove(&device.queue, &device.passes[1], irp_in(6, 0)), CSQ_OK);
    return device;
}

static void what_the_pass_did_not_remove_is_refused(uint32_t list) {
    static const struct {
        struct csq_irp irp;
        uint32_t code;
    } rows[] = {
        { { 8, 0 }, CSQ_UNKNOWN_IRP },  { { UINT32_MAX, 0 }, CSQ_UNKNOWN_IRP },
        { { 0, 1 }, CSQ_NOT_HELD },     { { 0, UINT32_MAX }, CSQ_NOT_HELD },
        { { 1, 0 }, CSQ_NOT_HELD },     { { 2, 0 }, CSQ_NOT_REMOVED },
        { { 2, 1 }, CSQ_NOT_HELD },     { { 3, 0 }, CSQ_NOT_REMOVED },
        { { 4, 0 }, CSQ_NOT_HELD },     { { 5, 0 }, CSQ_NOT_HELD },
        { { 6, 0 }, CSQ_NOT_HELD },     { { 7, 0 }, CSQ_NOT_HELD },
    };
    struct device device = device_of_each(list);
    uint32_t held = UNWRITTEN, owed = UNWRITTEN, len = UNWRITTEN;
    /* Each of these causes comes before that of the file object. */
    for (int closed = 0; closed < 2; closed++) {
        for (size_t row = 0; row < sizeof rows / sizeof *rows; row++) {
            IS(put_back(&device, 0, rows[row].irp, 0), rows[row].code);
        }
        IS(csq_close_file(&device.queue, &device.passes[3], 0), CSQ_OK);
    }
    /* All are as they were. */
    IS(csq_count_held(&device.passes[0], &held, &owed), CSQ_OK);
    IS(held, 3);
    IS(owed, 1);
    IS(csq_len(&device.queue, &len), CSQ_OK);
    IS(len, 2);
    IS(put_back(&device, 0, irp_in(0, 0), 0), CSQ_FILE_CLOSED);
    end(&device);
}

/* IRP 0 was removed from file object 0, and meanwhile these were inserted, each for a file object,
 * and perhaps that one was closed. Of each file object two may be listed, and three in all. */
struct meanwhile {
    uint32_t inserted[3], closed, code;
};

static void what_finds_no_place_stays_with_its_pass(uint32_t list) {
    static const uint32_t file_limits[] = { 2, 2, 2 };
    static const struct meanwhile rows[] = {
        { { CSQ_ANY, CSQ_ANY, CSQ_ANY }, 0, CSQ_OK },   { { 0, 1, CSQ_ANY }, 0, CSQ_OK },
        { { 0, 0, CSQ_ANY }, 0, CSQ_FILE_FULL },        { { 0, 0, 1 }, 0, CSQ_FILE_FULL },
        { { 1, 1, 2 }, 0, CSQ_FULL },                   { { 0, 1, 1 }, 0, CSQ_FULL },
        { { CSQ_ANY, CSQ_ANY, CSQ_ANY }, 1, CSQ_FILE_CLOSED }, { { 0, 0, 1 }, 1, CSQ_FILE_CLOSED },
    };
    for (size_t row = 0; row < sizeof rows / sizeof *rows; row++) {
        struct csq_size size = { 4, 3, 3, CHECK_PASSES, 0, list };
        struct device device = { CSQ_EMPTY, { CSQ_EMPTY, CSQ_EMPTY, CSQ_EMPTY, CSQ_EMPTY }, 4 };
        IS(csq_new_with_file_limits(&device.queue, &size, file_limits, 3), CSQ_OK);
        hand_out(&device);
        IS(put(&device, 0, 0, 0), CSQ_OK);
        IS(take(&device, 1, 0), 0);
        for (uint32_t irp = 1; irp < 4 && rows[row].inserted[irp - 1] != CSQ_ANY; irp++) {
            IS(put(&device, 0, irp, rows[row].inserted[irp - 1]), CSQ_OK);
        }
        if (rows[row].closed) {
            IS(csq_close_file(&device.queue, &device.passes[2], 0), CSQ_OK);
        }
        IS(put_back(&device, 1, irp_in(0, 0), 1), rows[row].code);
        /* It is held still, and is completed as anything that was removed, or is put back once
         * there is a place. */
        if (rows[row].code == CSQ_FULL || rows[row].code == CSQ_FILE_FULL) {
            CHECK(take(&device, 2, rows[row].inserted[0]) != CSQ_ANY);
            IS(put_back(&device, 1, irp_in(0, 0), 1), CSQ_OK);
        } else {
            IS(csq_complete(&device.passes[1], irp_in(0, 0), 7),
               rows[row].code == CSQ_OK ? CSQ_NOT_HELD : CSQ_OK);
        }
        end(&device);
    }
}

/* A put-back that is refused doesn't look whether the IRP was cancelled, and leaves the pass free
 * to complete it. */
static void a_refused_put_back_leaves_a_cancel_where_it_is(uint32_t list) {
    struct device device = device_of(size_of(2, 1, list));
    for (uint32_t irp = 0; irp < 2; irp++) {
        put(&device, 0, irp, 0);
        IS(take(&device, 1, 0), irp);
        IS(mark(&device, 2, irp, 0), 0);
    }
    IS(csq_close_file(&device.queue, &device.passes[2], 0), CSQ_OK);
    IS(put_back(&device, 1, irp_in(0, 0), 0), CSQ_FILE_CLOSED);
    IS(put_back(&device, 1, irp_in(1, 0), 0), CSQ_FILE_CLOSED);
    IS(csq_complete(&device.passes[1], irp_in(0, 0), 7), CSQ_OK);
    IS(csq_complete_cancelled(&device.passes[1], irp_in(1, 0)), CSQ_OK);
    status_of(&device, 0, 7);
    status_of(&device, 1, CSQ_STATUS_CANCELLED);
    end(&device);
}

/* A cleanup takes what was put back before it, and refuses what is put back after it. */
static void a_cleanup_finds_what_was_put_back(uint32_t list) {
    struct device device = device_of(size_of(2, 1, list));
    put(&device, 0, 0, 0);
    put(&device, 0, 1, 0);
    IS(take(&device, 1, 0), 0);
    IS(take(&device, 1, 0), 1);
    IS(put_back(&device, 1, irp_in(0, 0), 0), CSQ_OK);
    IS(csq_close_file(&device.queue, &device.passes[2], 0), CSQ_OK);
    IS(put_back(&device, 1, irp_in(1, 0), 0), CSQ_FILE_CLOSED);
    IS(take(&device, 2, 0), 0);
    IS(take(&device, 2, 0), CSQ_ANY);
    IS(csq_complete_cancelled(&device.passes[2], irp_in(0, 0)), CSQ_OK);
    IS(csq_complete_cancelled(&device.passes[1], irp_in(1, 0)), CSQ_OK);
    end(&device);
}

static void its_next_life_begins_once_it_was_completed(uint32_t list) {
    struct device device = device_of(size_of(1, 1, list));
    struct csq_pass *by = &device.passes[1];
    for (uint32_t life = 0; life < 50; life++) {
        struct csq_irp irp = irp_in(0, life);
        uint32_t next = UNWRITTEN;
        IS(put(&device, 0, 0, 0), CSQ_OK);
        IS(take(&device, 1, 0), 0);
        IS(put_back(&device, 1, irp_in(0, life - 1), 0), CSQ_NOT_HELD);
        IS(put_back(&device, 1, irp, life % 2), CSQ_OK);
        IS(csq_reuse(&device.queue, by, irp, &next), CSQ_NOT_COMPLETED);
        IS(csq_remove(&device.queue, by, irp), CSQ_OK);
        IS(csq_complete(by, irp, life), CSQ_OK);
        IS(csq_reuse(&device.queue, by, irp, &next), CSQ_OK);
        IS(next, life + 1);
    }
    end(&device);
}

int main(void) {
    RUN_BOTH(no_cancel_is_lost_whenever_it_comes);
    RUN_BOTH(another_worker_goes_on_with_it);
    RUN_BOTH(it_stands_at_the_front_or_at_the_end);
    RUN_BOTH(what_the_pass_did_not_remove_is_refused);
    RUN_BOTH(what_finds_no_place_stays_with_its_pass);
    RUN_BOTH(a_refused_put_back_leaves_a_cancel_where_it_is);
    RUN_BOTH(a_cleanup_finds_what_was_put_back);
    RUN_BOTH(its_next_life_begins_once_it_was_completed);
    return DONE();
}
