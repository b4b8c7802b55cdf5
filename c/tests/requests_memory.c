/* Memory of csq_ledger.h, csq_replay.h and csq_requests.h: each call for it refused, and that no
 * call takes any but those that make something. The linker leads all calls for memory here
 * (--wrap). */
#include "requests_check.h"
#include "wrapped.h"

#include "csq_replay.h"

#include <errno.h>

/* How often memory was asked for, how many blocks are out, and which call is refused: from that one
 * on all are, or that one alone. */
static unsigned long asked, blocks, refused;
static int and_later;

static int refuses(void) {
    asked++;
    return refused && (asked == refused || (and_later && asked > refused));
}

static void *counted(void *block) {
    blocks += block != NULL;
    return block;
}

void *__wrap_malloc(size_t bytes) {
    return refuses() ? NULL : counted(__real_malloc(bytes));
}

void *__wrap_calloc(size_t count, size_t bytes) {
    return refuses() ? NULL : counted(__real_calloc(count, bytes));
}

void *__wrap_realloc(void *block, size_t bytes) {
    if (refuses()) {
        return NULL;
    }
    return block ? __real_realloc(block, bytes) : counted(__real_realloc(NULL, bytes));
}

#ifndef _WIN32 /* which has neither */
void *__wrap_aligned_alloc(size_t alignment, size_t bytes) {
    return refuses() ? NULL : counted(__real_aligned_alloc(alignment, bytes));
}

int __wrap_posix_memalign(void **block, size_t alignment, size_t bytes) {
    const int code = refuses() ? ENOMEM : __real_posix_memalign(block, alignment, bytes);
    blocks += code == 0;
    return code;
}
#endif

void __wrap_free(void *block) {
    blocks -= block != NULL;
    __real_free(block);
}

static void refuse(unsigned long which, int later) {
    asked = 0;
    refused = which;
    and_later = later;
}

/* ---- What is refused while something is made ---- */

static const uint32_t limits[FILES] = { 1, 2, 3 };

static uint32_t make_ledger(uint32_t list, int is_limited) {
    struct csq_ledger ledger = { NULL };
    const struct csq_size size = size_of(4, FILES, list);
    uint32_t code = is_limited
                        ? csq_ledger_new_with_file_limits(&ledger, &size, limits, FILES)
                        : csq_ledger_new(&ledger, &size);
    CHECK((code == CSQ_OK) == (ledger.at != NULL));
    if (code == CSQ_OK) {
        IS(csq_ledger_free(&ledger), CSQ_OK);
    }
    return code;
}

/* Neither the list nor the limits are looked at. */
static uint32_t make_replay(uint32_t list, int is_limited) {
    struct csq_replay replay = { NULL };
    const struct csq_size size = size_of(4, FILES, list);
    uint32_t code = csq_replay_new(&replay, &size);
    (void)is_limited;
    CHECK((code == CSQ_OK) == (replay.at != NULL));
    if (code == CSQ_OK) {
        IS(csq_replay_free(&replay), CSQ_OK);
    }
    return code;
}

static uint32_t make_requests(uint32_t list, int is_limited) {
    struct csq_requests *requests = NULL;
    const struct csq_size size = size_of(4, FILES, list);
    uint32_t code = csq_requests_new(&requests, &size, is_limited ? limits : NULL, NULL);
    CHECK((code == CSQ_OK) == (requests != NULL));
    IS(csq_requests_free(&requests), CSQ_OK);
    return code;
}

/* It keeps nothing, whichever call for memory is refused, until none is. */
static void what_finds_no_memory_keeps_none(uint32_t list) {
    static uint32_t (*const makes[])(uint32_t, int) = { make_ledger, make_requests, make_replay };
    for (int at = 0; at < 12; at++) {
        const unsigned long before = blocks;
        unsigned long which = 0;
        uint32_t code = CSQ_NO_MEMORY;
        while (code != CSQ_OK && which < 1000) {
            refuse(++which, at / 6);
            code = makes[at % 3](list, at / 3 % 2);
            CHECK(code == CSQ_OK ? asked < which : code == CSQ_NO_MEMORY);
            IS(blocks, before);
        }
        CHECK(which > 3);
    }
    refuse(0, 0);
}

/* ---- A way through each call while none is to be had ---- */

static void ledgers_way(struct csq_ledger *ledger) {
    struct csq_ended ended;
    struct csq_irp name;
    struct csq_look look;
    uint64_t due = 0;
    uint32_t number, other;
    for (uint32_t turn = 0; turn < 8; turn++) {
        IS(csq_ledger_begin(ledger, 1, turn % 2, turn % 3 ? turn : CSQ_NEVER, &name), CSQ_OK);
        IS(csq_ledger_take(ledger, CSQ_ANY, &name, &number), CSQ_OK);
        IS(csq_ledger_put_back(ledger, name, 0), CSQ_OK);
        number = csq_ledger_next_due(ledger, &due);
        IS(number, turn % 3 ? CSQ_OK : CSQ_NONE);
        IS(turn % 3 ? csq_ledger_expire(ledger, turn, &name, &number)
                    : csq_ledger_cancel(ledger, name, CSQ_WHY_CANCEL), CSQ_OK);
        IS(csq_ledger_look(ledger, name, &look), CSQ_OK);
        IS(csq_ledger_end(ledger, name, &ended), CSQ_OK);
        IS(csq_ledger_begin(ledger, 2, 0, CSQ_NEVER, &name), CSQ_OK);
        IS(csq_ledger_drain_next(ledger, 2, CSQ_WHY_DRAIN, &name, &number), CSQ_OK);
        IS(csq_ledger_end(ledger, name, &ended), CSQ_OK);
        IS(csq_ledger_begin(ledger, 2, 0, CSQ_NEVER, &name), CSQ_OK);
        IS(csq_ledger_take(ledger, CSQ_ANY, &name, &number), CSQ_OK);
        IS(csq_ledger_finish(ledger, name, 0, &ended), CSQ_OK);
        IS(csq_ledger_len(ledger, CSQ_ANY, &number, &other), CSQ_OK);
    }
    IS(csq_ledger_close_file(ledger, 0), CSQ_OK);
    IS(csq_ledger_close(ledger), CSQ_OK);
}

static void replays_way(struct csq_replay *replay) {
    static const uint32_t kinds[] = { CSQ_STEP_ARM, CSQ_STEP_TEST, CSQ_STEP_DISARM, CSQ_STEP_DONE,
                                      CSQ_STEP_RENEW };
    struct csq_step step = { 1, 1, 0, { 0, 0 } };
    struct csq_refusal refusal;
    struct csq_placed placed;
    uint32_t found;
    for (; step.irp.life < 8; step.irp.life++) {
        for (size_t at = 0; at < sizeof kinds / sizeof *kinds; at++) {
            step.kind = kinds[at];
            IS(csq_replay_step(replay, &step, &found, &refusal), CSQ_OK);
        }
        IS(csq_replay_step(replay, &step, &found, &refusal), CSQ_STALE);
        IS(csq_replay_irp(replay, 0, &placed), CSQ_OK);
        IS(csq_replay_rest(replay), CSQ_OK);
    }
}

static void requests_way(struct csq_requests *requests) {
    struct csq_request taken;
    struct csq_irp name;
    void *value = NULL;
    for (int turn = 0; turn < 8; turn++) {
        submit_until(requests, 1, 0, 10);
        IS(next(requests, 0, &taken), 1);
        IS(csq_requests_put_back(requests, &taken, 0), CSQ_OK);
        IS(csq_requests_tick(requests, 10), CSQ_FOREVER);
        name = submit(requests, 2, 1, 0);
        IS(csq_requests_cancel(requests, name, &value), CSQ_OK);
        submit(requests, 3, 1, 0);
        IS(csq_requests_drain(requests, 1, 1), CSQ_OK);
        submit(requests, 4, 1, 0);
        IS(csq_requests_next(requests, 1, 1, &taken), CSQ_OK);
        IS(csq_requests_complete(requests, &taken, 0), CSQ_OK);
        IS(csq_requests_next(requests, 1, 1, &taken), CSQ_NONE);
    }
    IS(csq_requests_cleanup(requests, 0, 0), CSQ_OK);
    csq_requests_close(requests);
}

static void no_other_call_takes_memory(uint32_t list) {
    const unsigned long before = blocks;
    const struct csq_size size = size_of(4, FILES, list);
    struct csq_ledger ledger = { NULL };
    struct csq_replay replay = { NULL };
    struct csq_requests *requests = made(4, list, NULL);
    IS(csq_ledger_new(&ledger, &size), CSQ_OK);
    IS(csq_replay_new(&replay, &size), CSQ_OK);
    refuse(1, 1);
    ledgers_way(&ledger);
    replays_way(&replay);
    requests_way(requests);
    IS(asked, 0);
    IS(csq_ledger_free(&ledger), CSQ_OK);
    IS(csq_replay_free(&replay), CSQ_OK);
    IS(csq_requests_free(&requests), CSQ_OK);
    IS(asked, 0);
    IS(blocks, before);
    refuse(0, 0);
}

int main(void) {
    RUN_BOTH(what_finds_no_memory_keeps_none);
    RUN_BOTH(no_other_call_takes_memory);
    return DONE();
}
