/* Memory: each call for it refused, what is given back, and that no call takes any but those that
 * make something. The linker leads all calls for memory here (--wrap). c/run-tests writes calls.h
 * from csq.h: it makes of each call a macro that notes it, and has the list `calls` of their
 * names. */
#include "csq.h"

#include <errno.h>
#include <stdbool.h>
#include <string.h>

static void note(const char *call);
#include "calls.h"

#include "check.h"
#include "wrapped.h"

/* How often memory was asked for, and how many blocks are out. */
static unsigned long asked, blocks;

/* Which call is refused, 0 for none, and whether all after it are too. */
static unsigned long refused;
static bool and_later;

/* How many bytes were asked for. */
static size_t wanted;

static bool refuses(size_t bytes) {
    asked++;
    wanted += bytes;
    return refused && (asked == refused || (and_later && asked > refused));
}

static void *counted(void *block) {
    blocks += block != NULL;
    return block;
}

void *__wrap_malloc(size_t bytes) {
    return refuses(bytes) ? NULL : counted(__real_malloc(bytes));
}

void *__wrap_calloc(size_t count, size_t bytes) {
    return refuses(count * bytes) ? NULL : counted(__real_calloc(count, bytes));
}

void *__wrap_realloc(void *block, size_t bytes) {
    if (refuses(bytes)) {
        return NULL;
    }
    return block ? __real_realloc(block, bytes) : counted(__real_realloc(NULL, bytes));
}

#ifndef _WIN32 /* which has neither */
void *__wrap_aligned_alloc(size_t alignment, size_t bytes) {
    return refuses(bytes) ? NULL : counted(__real_aligned_alloc(alignment, bytes));
}

int __wrap_posix_memalign(void **block, size_t alignment, size_t bytes) {
    if (refuses(bytes)) {
        return ENOMEM;
    }
    int code = __real_posix_memalign(block, alignment, bytes);
    blocks += code == 0;
    return code;
}
#endif

void __wrap_free(void *block) {
    blocks -= block != NULL;
    __real_free(block);
}

static void refuse(unsigned long which, bool later) {
    asked = 0;
    refused = which;
    and_later = later;
}

/* Which of the calls were made while none may take memory. */
static bool forbidden, noted[sizeof calls / sizeof *calls];

static void note(const char *call) {
    for (size_t at = 0; forbidden && at < sizeof calls / sizeof *calls; at++) {
        noted[at] = noted[at] || strcmp(calls[at], call) == 0;
    }
}

/* Between these two no call may take memory: each is refused, and counted. */
static void forbid(void) {
    refuse(1, true);
    forbidden = true;
}
static void allow(void) {
    IS(asked, 0);
    refuse(0, false);
    forbidden = false;
}

static const uint32_t file_limits[] = { 2, 1 };

static uint32_t make(struct csq_queue *queue, uint32_t list, bool limited) {
    struct csq_size size = { 4, 2, 3, 1, 0, list };
    return limited ? csq_new_with_file_limits(queue, &size, file_limits, 2) : csq_new(queue, &size);
}

/* Makes a queue while a call for memory is refused, and frees it; returns whether the refusal was
 * met. One that is met alone may be made good. */
static bool try_new(uint32_t list, bool limited, unsigned long which, bool later) {
    struct csq_queue queue = CSQ_EMPTY;
    unsigned long before = blocks;
    refuse(which, later);
    uint32_t code = make(&queue, list, limited);
    bool met = asked >= which;
    refuse(0, false);
    if (code == CSQ_OK) {
        CHECK(!met || !later);
        IS(csq_free(&queue), CSQ_OK);
    } else {
        IS(code, CSQ_NO_MEMORY);
        CHECK(queue.at == NULL);
    }
    IS(blocks, before);
    return met;
}

/* Refuses each call for memory in turn, until none is met; returns how many there were. */
static unsigned long refuse_each_of_new(uint32_t list, bool limited, bool later) {
    unsigned long which = 1;
    while (which < 100000 && try_new(list, limited, which, later)) {
        which++;
    }
    return which - 1;
}

static void a_queue_that_finds_no_memory_keeps_none(uint32_t list) {
    unsigned long met = refuse_each_of_new(list, false, true);
    CHECK(met > 0);
    CHECK(refuse_each_of_new(list, false, false) >= met);
    CHECK(refuse_each_of_new(list, true, true) > 0);
    CHECK(refuse_each_of_new(list, true, false) > 0);
    snprintf(check_note, sizeof check_note, " (%lu calls for memory, each refused)", met);
}

/* The same of a queue's one pass, which is asked for again if it was refused. */
static bool try_pass(uint32_t list, unsigned long which, bool later) {
    struct csq_queue queue = CSQ_EMPTY;
    struct csq_pass pass = CSQ_EMPTY;
    uint32_t out = UNWRITTEN;
    IS(make(&queue, list, false), CSQ_OK);
    unsigned long before = blocks;
    refuse(which, later);
    uint32_t code = csq_take_pass(&queue, &pass);
    bool met = asked >= which;
    refuse(0, false);
    if (code != CSQ_OK) {
        IS(code, CSQ_NO_MEMORY);
        CHECK(pass.at == NULL && blocks == before);
        IS(csq_count_passes_out(&queue, &out), CSQ_OK);
        IS(out, 0);
        IS(csq_take_pass(&queue, &pass), CSQ_OK);
    } else {
        CHECK(!met || !later);
    }
    IS(csq_give_back(&queue, &pass), CSQ_OK);
    IS(csq_free(&queue), CSQ_OK);
    return met;
}

static void a_pass_that_finds_no_memory_can_be_asked_for_again(uint32_t list) {
    unsigned long met = 0;
    for (int later = 0; later < 2; later++) {
        for (met = 0; met < 100000 && try_pass(list, met + 1, later); met++) {
        }
        CHECK(met > 0);
    }
    snprintf(check_note, sizeof check_note, " (%lu calls for memory, each refused)", met);
}

static void other_refusals_come_before_that_of_memory(uint32_t list) {
    struct csq_queue queue = CSQ_EMPTY;
    struct csq_pass pass = CSQ_EMPTY, other = CSQ_EMPTY;
    struct csq_size bad = { 4, 2, 5, 1, 0, list };
    IS(make(&queue, list, false), CSQ_OK);
    IS(csq_take_pass(&queue, &pass), CSQ_OK);
    refuse(1, true);
    IS(make(&queue, list, false), CSQ_NOT_EMPTY);
    IS(csq_take_pass(&queue, &pass), CSQ_NOT_EMPTY);
    IS(csq_take_pass(&queue, &other), CSQ_NO_PASS);
    IS(csq_give_back(&queue, &pass), CSQ_OK);
    IS(csq_free(&queue), CSQ_OK);
    IS(csq_new(&queue, &bad), CSQ_BAD_SIZE);
    IS(csq_new_with_file_limits(&queue, &bad, file_limits, 1), CSQ_BAD_SIZE);
    IS(asked, 0);
    refuse(0, false);
}

/* Of a large queue: more than the 1,024 IRPs and 256 file objects of one that isn't. */
enum { IRPS = 2048, FILES = 512 };

/* One life of each IRP: by turns removed, put back and removed again; removed by its context;
 * cancelled before and after its insert. */
static void lead_through_a_life(struct device *device, uint32_t irp, uint32_t life) {
    struct csq_irp name = { irp, life };
    uint32_t way = irp % 4, next = UNWRITTEN, found = UNWRITTEN, value = UNWRITTEN;
    if (way == 3) {
        IS(csq_mark_cancel(&device->passes[1], name, &found), CSQ_OK);
    }
    IS(csq_insert(&device->queue, &device->passes[0], irp, irp % FILES, irp % 3, &name),
       way == 3 ? CSQ_CANCELLED : CSQ_OK);
    if (way == 0) {
        IS(csq_remove_next(&device->queue, &device->passes[0], irp % FILES, &name), CSQ_OK);
        IS(csq_put_back(&device->queue, &device->passes[0], name, irp % 8, &name), CSQ_OK);
        IS(csq_remove_next(&device->queue, &device->passes[0], irp % FILES, &name), CSQ_OK);
    } else if (way == 1) {
        IS(csq_remove(&device->queue, &device->passes[0], name), CSQ_OK);
    } else if (way == 2) {
        IS(csq_mark_cancel(&device->passes[0], name, &found), CSQ_OK);
        IS(found, 1);
        IS(csq_cancel_routine(&device->queue, &device->passes[0], name), CSQ_OK);
    }
    IS(csq_complete(&device->passes[0], name, 7), way < 2 ? CSQ_OK : CSQ_NOT_REMOVED);
    IS(csq_complete_cancelled(&device->passes[0], name), way < 2 ? CSQ_NOT_HELD : CSQ_OK);
    IS(csq_read_status(&device->passes[2], irp, &next, &value), CSQ_OK);
    IS(csq_read_cancel(&device->passes[2], irp, &next, &value), CSQ_OK);
    IS(csq_reuse(&device->queue, &device->passes[3], name, &next), CSQ_OK);
    IS(next, life + 1);
}

static void lead_each_through_two_lives(struct device *device) {
    for (uint32_t turn = 0; turn < 2 * IRPS; turn++) {
        lead_through_a_life(device, turn % IRPS, turn / IRPS);
    }
}

/* What is reported of a queue in which all IRPs are listed in their third life, the even ones with
 * a canceller. */
static void look_at(struct device *device) {
    static const uint32_t excused[] = { 7 };
    struct csq_irp irp = irp_in(UNWRITTEN, UNWRITTEN);
    uint32_t stored = UNWRITTEN, skipped = UNWRITTEN;
    IS(csq_version(), CSQ_VERSION_NUMBER);
    CHECK(csq_name(CSQ_OK) != NULL);
    IS(csq_insert_status(CSQ_OK), CSQ_STATUS_PENDING);
    IS(csq_peek_next(&device->queue, CSQ_ANY, CSQ_ANY, &irp), CSQ_OK);
    IS(csq_peek_next(&device->queue, irp.irp, 7, &irp), CSQ_OK);
    IS(irp.irp, 7);
    IS(csq_peek_next(&device->queue, IRPS - 1, 7, &irp), CSQ_NONE);
    IS(csq_len(&device->queue, &stored), CSQ_OK);
    IS(stored, IRPS);
    IS(csq_file_len(&device->queue, 7, &stored), CSQ_OK);
    IS(stored, IRPS / FILES);
    IS(csq_judge_peek(&device->queue, CSQ_ANY, 7, 7, &stored, &skipped), CSQ_OK);
    IS(stored, CSQ_PEEK_AGREES);
    IS(csq_judge_peek(&device->queue, CSQ_ANY, 7, CSQ_ANY, &stored, &skipped), CSQ_OK);
    IS(stored, CSQ_PEEK_SKIPS);
    IS(csq_judge_cleanup(&device->queue, 7, excused, 1, &stored), CSQ_OK);
    IS(stored, 7 + FILES);
}

/* What a driver does beside it: a removal and a completion, a removal and an insert; and each of
 * what is listed. */
static void judge(struct device *device) {
    struct csq_pass *pass = &device->passes[0];
    uint32_t verdict = UNWRITTEN;
    IS(csq_judge_remove(&device->queue, pass, irp_in(1, 2), &verdict), CSQ_OK);
    IS(verdict, CSQ_REMOVE_AGREES);
    IS(csq_judge_complete(&device->queue, pass, irp_in(1, 2), 7, &verdict), CSQ_OK);
    IS(verdict, CSQ_USE_AGREES);
    IS(csq_remove(&device->queue, pass, irp_in(3, 2)), CSQ_OK);
    IS(csq_judge_insert(&device->queue, pass, irp_in(3, 2), &verdict), CSQ_OK);
    IS(verdict, CSQ_USE_AGREES);
    IS(csq_judge_remove(&device->queue, pass, irp_in(2, 2), &verdict), CSQ_OK);
    IS(verdict, CSQ_REMOVE_CLAIMED);
    IS(csq_judge_complete(&device->queue, pass, irp_in(2, 2), 7, &verdict), CSQ_OK);
    IS(verdict, CSQ_USE_LISTED);
    IS(csq_judge_insert(&device->queue, pass, irp_in(2, 2), &verdict), CSQ_OK);
    IS(verdict, CSQ_USE_LISTED);
}

static void unused(void *context) {
    (void)context;
}

/* The calls that take the lock themselves. */
static void cancel_and_clean_up(struct device *device) {
    static const struct csq_lock lock = { unused, unused, NULL };
    struct csq_pass *pass = &device->passes[0];
    uint32_t completed = UNWRITTEN;
    IS(csq_cancel(&device->queue, pass, irp_in(5, 2), &lock, NULL, &completed), CSQ_OK);
    IS(completed, 1);
    IS(csq_drain(&device->queue, pass, 9, &lock, NULL, &completed), CSQ_OK);
    IS(completed, IRPS / FILES);
    IS(csq_cleanup(&device->queue, pass, 11, &lock, NULL, &completed), CSQ_OK);
    IS(completed, IRPS / FILES);
    IS(csq_cancel_with(&device->queue, pass, irp_in(7, 2), &lock, NULL, &completed), CSQ_OK);
    IS(completed, 1);
    IS(csq_drain_with(&device->queue, pass, 13, &lock, NULL, &completed), CSQ_OK);
    IS(completed, IRPS / FILES);
    IS(csq_cleanup_with(&device->queue, pass, 15, &lock, NULL, &completed), CSQ_OK);
    IS(completed, IRPS / FILES);
}

/* Lists all IRPs, which are in their third life, and then marks the even ones as cancelled. */
static void insert_each(struct device *device) {
    for (uint32_t at = 0; at < IRPS; at++) {
        IS(put(device, 0, at, at % FILES), CSQ_OK);
        IS(put(device, 0, at, 0), CSQ_NOT_HOME);
    }
}
static void mark_the_even_ones(struct device *device) {
    for (uint32_t at = 0; at < IRPS; at += 2) {
        IS(mark(device, 1, at, 2), 1);
    }
}

static void no_other_call_takes_memory(uint32_t list) {
    unsigned long before = blocks;
    struct device device = device_of(size_of(IRPS, FILES, list));
    struct csq_left left;
    uint32_t irp = UNWRITTEN, held = UNWRITTEN, owed = UNWRITTEN;
    forbid();
    lead_each_through_two_lives(&device);
    insert_each(&device);
    mark_the_even_ones(&device);
    look_at(&device);
    judge(&device);
    cancel_and_clean_up(&device);
    IS(csq_count_held(&device.passes[1], &held, &owed), CSQ_OK);
    IS(csq_count_passes_out(&device.queue, &irp), CSQ_OK);
    IS(csq_close_file(&device.queue, &device.passes[0], FILES - 1), CSQ_OK);
    while (take(&device, 2, FILES - 1) != CSQ_ANY) {
    }
    settle(&device);
    IS(csq_close(&device.queue), CSQ_OK);
    IS(csq_read_listed(&device.queue, CSQ_ANY, &irp), CSQ_OK);
    IS(csq_read_left(&device.queue, irp, &left), CSQ_OK);
    IS(csq_free(&device.queue), CSQ_OK);
    allow();
    IS(blocks, before);
}

/* Its queue is never freed, since the pass counts as out ever after. */
static void a_pass_that_is_freed_keeps_no_memory(uint32_t list) {
    static struct csq_queue queues[2];
    struct csq_pass pass = CSQ_EMPTY;
    IS(make(&queues[list], list, false), CSQ_OK);
    unsigned long before = blocks;
    IS(csq_take_pass(&queues[list], &pass), CSQ_OK);
    CHECK(blocks > before);
    forbid();
    IS(csq_abandon_pass(&pass), CSQ_OK);
    allow();
    IS(blocks, before);
}

/* Only the first hand-out of a pass takes memory: one that came back keeps its blocks until its
 * queue ends. */
static void a_pass_that_came_back_is_handed_out_without_memory(uint32_t list) {
    struct csq_queue queue = CSQ_EMPTY;
    struct csq_pass pass = CSQ_EMPTY;
    unsigned long before = blocks;
    IS(make(&queue, list, false), CSQ_OK);
    IS(csq_take_pass(&queue, &pass), CSQ_OK);
    IS(csq_give_back(&queue, &pass), CSQ_OK);
    forbid();
    for (int turn = 0; turn < 100; turn++) {
        IS(csq_take_pass(&queue, &pass), CSQ_OK);
        IS(csq_give_back(&queue, &pass), CSQ_OK);
    }
    IS(csq_close(&queue), CSQ_OK);
    IS(csq_free_queue(&queue), CSQ_OK);
    allow();
    IS(blocks, before);
}

static struct csq_pass passes[CSQ_MOST_PASSES];

static void hand_all_out(struct csq_queue *queue) {
    for (uint32_t at = 0; at < CSQ_MOST_PASSES; at++) {
        IS(csq_take_pass(queue, &passes[at]), CSQ_OK);
    }
}

static void give_all_back(struct csq_queue *queue) {
    for (uint32_t at = 0; at < CSQ_MOST_PASSES; at++) {
        IS(csq_give_back(queue, &passes[at]), CSQ_OK);
    }
}

/* However many passes a queue has. */
static void all_passes_that_came_back_are_handed_out_without_memory(uint32_t list) {
    struct csq_queue queue = CSQ_EMPTY;
    struct csq_size size = { 1, 1, 1, CSQ_MOST_PASSES, 0, list };
    unsigned long before = blocks;
    IS(csq_new(&queue, &size), CSQ_OK);
    hand_all_out(&queue);
    give_all_back(&queue);
    forbid();
    hand_all_out(&queue);
    give_all_back(&queue);
    IS(csq_close(&queue), CSQ_OK);
    IS(csq_free(&queue), CSQ_OK);
    allow();
    IS(blocks, before);
}

/* Of a new pass csq_take_pass takes memory too, and of one that came back it takes none. */
static bool makes_a_queue(const char *call) {
    static const char *const makers[] = { "csq_new", "csq_new_with_file_limits", "csq_new_queue",
                                          "csq_new_queue_with_file_limits" };
    bool found = false;
    for (size_t at = 0; at < sizeof makers / sizeof *makers; at++) {
        found = found || strcmp(call, makers[at]) == 0;
    }
    return found;
}

/* The tests before this one leave out no call of csq.h. */
static void each_call_that_makes_no_queue_was_made_without_memory(void) {
    for (size_t at = 0; at < sizeof calls / sizeof *calls; at++) {
        char what[100];
        snprintf(what, sizeof what, "%s was made while memory was refused", calls[at]);
        check_that(noted[at] || makes_a_queue(calls[at]), what, __FILE__, __LINE__);
    }
}

/* How many bytes a queue of this many IRPs takes, of which one may be listed: the limit chooses no
 * kind of list. */
static size_t bytes_of(uint32_t irps, uint32_t list, bool limited) {
    struct csq_queue queue = CSQ_EMPTY;
    struct csq_size size = { irps, 2, 1, 1, 0, list };
    wanted = 0;
    IS(limited ? csq_new_with_file_limits(&queue, &size, file_limits, 2) : csq_new(&queue, &size),
       CSQ_OK);
    size_t bytes = wanted;
    IS(csq_free(&queue), CSQ_OK);
    return bytes;
}

/* The two kinds of list answer alike, but take different room. CSQ_AUTO is one of them, by the
 * number of IRPs. */
static void a_queue_has_the_list_that_was_asked_for(void) {
    static const uint32_t sizes[] = { CSQ_AUTO_VECTOR_IRPS, CSQ_AUTO_VECTOR_IRPS + 1,
                                      CSQ_MOST_IRPS };
    for (size_t at = 0; at < 2 * (sizeof sizes / sizeof *sizes); at++) {
        uint32_t irps = sizes[at / 2],
                 chosen = irps <= CSQ_AUTO_VECTOR_IRPS ? CSQ_VECTOR : CSQ_CHAINS;
        bool limited = at % 2;
        CHECK(bytes_of(irps, CSQ_VECTOR, limited) < bytes_of(irps, CSQ_CHAINS, limited));
        IS(bytes_of(irps, CSQ_AUTO, limited), bytes_of(irps, chosen, limited));
    }
}

int main(void) {
    RUN_BOTH(a_queue_that_finds_no_memory_keeps_none);
    RUN_BOTH(a_pass_that_finds_no_memory_can_be_asked_for_again);
    RUN_BOTH(other_refusals_come_before_that_of_memory);
    RUN_BOTH(no_other_call_takes_memory);
    RUN_BOTH(a_pass_that_is_freed_keeps_no_memory);
    RUN_BOTH(a_pass_that_came_back_is_handed_out_without_memory);
    RUN_BOTH(all_passes_that_came_back_are_handed_out_without_memory);
    RUN(each_call_that_makes_no_queue_was_made_without_memory);
    RUN(a_queue_has_the_list_that_was_asked_for);
    return DONE();
}
