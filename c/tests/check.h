/* What every test program uses: checks that say where they failed, and a queue with its passes. */
#ifndef CHECK_H
#define CHECK_H

#include "csq.h"

#include <stdio.h>
#include <stdlib.h>

/* What out parameters hold before a call, to see whether it wrote them. */
#define UNWRITTEN UINT32_C(0xABABABAB)

static const char *check_test = "";
/* What a test is given beside its name. */
static char check_note[200];
static int check_failed;
static int check_failures;

static inline void check_that(int holds, const char *what, const char *file, int line) {
    if (!holds && !check_failed) {
        printf("FAILED %s: %s:%d: %s\n", check_test, file, line, what);
        check_failed = 1;
    }
}

static inline void check_number(unsigned long long got, unsigned long long want, const char *what,
                                const char *file, int line) {
    if (got != want && !check_failed) {
        printf("FAILED %s: %s:%d: %s is %llu, not %llu\n", check_test, file, line, what, got, want);
        check_failed = 1;
    }
}

/* Some condition; a number, most often a call's code. A test reports its first failure alone. */
#define CHECK(condition) check_that((condition) != 0, #condition, __FILE__, __LINE__)
#define IS(got, want) check_number((got), (want), #got, __FILE__, __LINE__)

static inline void check_end(void) {
    if (check_failed) {
        check_failures++;
    } else {
        printf("passed %s%s\n", check_test, check_note);
    }
    check_note[0] = 0;
    fflush(stdout);
}

/* Runs a test, or one that takes a kind of list over both. */
#define RUN(test) (check_test = #test, check_failed = 0, test(), check_end())
#define RUN_BOTH(test)                                                             \
    (check_test = #test ", vector", check_failed = 0, test(CSQ_VECTOR), check_end(), \
     check_test = #test ", chains", check_failed = 0, test(CSQ_CHAINS), check_end())
#define DONE() (check_failures ? 1 : 0)

enum { CHECK_PASSES = 4 };

/* A queue with four passes. */
struct device {
    struct csq_queue queue;
    struct csq_pass passes[CHECK_PASSES];
    uint32_t irps;
};

static inline struct csq_size size_of(uint32_t irps, uint32_t files, uint32_t list) {
    struct csq_size size = { irps, files, irps, CHECK_PASSES, 0, list };
    return size;
}

static inline void hand_out(struct device *device) {
    for (int at = 0; at < CHECK_PASSES; at++) {
        IS(csq_take_pass(&device->queue, &device->passes[at]), CSQ_OK);
    }
}

static inline struct device device_of(struct csq_size size) {
    struct device device = { CSQ_EMPTY, { CSQ_EMPTY, CSQ_EMPTY, CSQ_EMPTY, CSQ_EMPTY }, size.irps };
    size.passes = CHECK_PASSES;
    IS(csq_new(&device.queue, &size), CSQ_OK);
    hand_out(&device);
    return device;
}

/* An IRP in a life; and in its present one. */
static inline struct csq_irp irp_in(uint32_t irp, uint32_t life) {
    struct csq_irp name = { irp, life };
    return name;
}
static inline struct csq_irp present(struct csq_pass *pass, uint32_t irp) {
    uint32_t life = UNWRITTEN, cancelled = UNWRITTEN;
    IS(csq_read_cancel(pass, irp, &life, &cancelled), CSQ_OK);
    return irp_in(irp, life);
}

/* Completes whatever the passes hold and owe, and gives them back. */
static inline void settle(struct device *device) {
    for (int at = 0; at < CHECK_PASSES; at++) {
        struct csq_pass *pass = &device->passes[at];
        uint32_t held = 1, owed = 1;
        for (uint32_t irp = 0; pass->at && irp < device->irps; irp++) {
            struct csq_irp name = present(pass, irp);
            uint32_t code = csq_cancel_owed(&device->queue, pass, name);
            CHECK(code == CSQ_OK || code == CSQ_NOT_OWED);
            code = csq_complete_cancelled(pass, name);
            CHECK(code == CSQ_OK || code == CSQ_NOT_HELD);
        }
        if (pass->at) {
            IS(csq_count_held(pass, &held, &owed), CSQ_OK);
            IS(held + owed, 0);
            IS(csq_give_back(&device->queue, pass), CSQ_OK);
        }
    }
}

static inline void end(struct device *device) {
    settle(device);
    IS(csq_free(&device->queue), CSQ_OK);
    CHECK(device->queue.at == NULL);
}

/* Inserts an IRP at the back for a file object, and answers the code. */
static inline uint32_t put(struct device *device, int pass, uint32_t irp, uint32_t file) {
    struct csq_irp context = { UNWRITTEN, UNWRITTEN };
    return csq_insert(&device->queue, &device->passes[pass], irp, file, 0, &context);
}

/* The IRP that csq_remove_next answers, or CSQ_ANY. */
static inline uint32_t take(struct device *device, int pass, uint32_t file) {
    struct csq_irp irp = { UNWRITTEN, UNWRITTEN };
    uint32_t code = csq_remove_next(&device->queue, &device->passes[pass], file, &irp);
    CHECK(code == CSQ_OK || (code == CSQ_NONE && irp.irp == UNWRITTEN && irp.life == UNWRITTEN));
    return code == CSQ_OK ? irp.irp : CSQ_ANY;
}

/* Puts an IRP back, and answers the code. An answer that stores the IRP stores it by the name that
 * it has. */
static inline uint32_t put_back(struct device *device, int pass, struct csq_irp irp,
                                uint32_t front) {
    struct csq_irp context = { UNWRITTEN, UNWRITTEN };
    uint32_t code = csq_put_back(&device->queue, &device->passes[pass], irp, front, &context);
    int stored = code == CSQ_OK || code == CSQ_CANCELLED;
    CHECK(context.irp == (stored ? irp.irp : UNWRITTEN) &&
          context.life == (stored ? irp.life : UNWRITTEN));
    return code;
}

/* What csq_mark_cancel finds of an IRP in a life; 2 where it is refused. */
static inline uint32_t mark(struct device *device, int pass, uint32_t irp, uint32_t life) {
    uint32_t found = 2;
    uint32_t code = csq_mark_cancel(&device->passes[pass], irp_in(irp, life), &found);
    CHECK(code == CSQ_OK ? found < 2 : found == 2);
    return found;
}

/* What an IRP was completed with in its first life. */
static inline void status_of(struct device *device, uint32_t irp, uint32_t want) {
    uint32_t life = UNWRITTEN, status = UNWRITTEN;
    IS(csq_read_status(&device->passes[3], irp, &life, &status), CSQ_OK);
    IS(life, 0);
    IS(status, want);
}

#endif
