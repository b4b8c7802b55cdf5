/* Empty, filled and closed handles in every call, and what a closed queue reports. */
#include "check.h"

/* What a call is handed: every call of the header takes some of these. */
struct arguments {
    struct csq_queue *queue;
    struct csq_pass *pass;
};

static uint32_t first, second, third;
static struct csq_irp named = { 0, 0 };
static struct csq_left left;
static const struct csq_size small = { 2, 1, 2, 2, 0, CSQ_CHAINS };
static const uint32_t one_limit[] = { 1 }, excused[] = { 9 };

static uint32_t new_of(struct arguments a) { return csq_new(a.queue, &small); }
static uint32_t limited_of(struct arguments a) {
    return csq_new_with_file_limits(a.queue, &small, one_limit, 1);
}
static uint32_t len_of(struct arguments a) { return csq_len(a.queue, &first); }
static uint32_t file_len_of(struct arguments a) { return csq_file_len(a.queue, 9, &first); }
static uint32_t peek_of(struct arguments a) { return csq_peek_next(a.queue, 9, 9, &named); }
static uint32_t judge_of(struct arguments a) {
    return csq_judge_peek(a.queue, 9, 9, 9, &first, &second);
}
static uint32_t left_by(struct arguments a) {
    return csq_judge_cleanup(a.queue, 9, excused, 1, &first);
}
static uint32_t out_of(struct arguments a) { return csq_count_passes_out(a.queue, &first); }
static uint32_t close_of(struct arguments a) { return csq_close(a.queue); }
static uint32_t listed_of(struct arguments a) { return csq_read_listed(a.queue, CSQ_ANY, &first); }
static uint32_t left_of(struct arguments a) { return csq_read_left(a.queue, 0, &left); }
static uint32_t pass_of(struct arguments a) { return csq_take_pass(a.queue, a.pass); }
static uint32_t back_of(struct arguments a) { return csq_give_back(a.queue, a.pass); }
static uint32_t insert_of(struct arguments a) {
    return csq_insert(a.queue, a.pass, 9, 9, 0, &named);
}
static uint32_t put_back_of(struct arguments a) {
    return csq_put_back(a.queue, a.pass, irp_in(9, 0), 0, &named);
}
static uint32_t next_of(struct arguments a) {
    return csq_remove_next(a.queue, a.pass, CSQ_ANY, &named);
}
static uint32_t remove_of(struct arguments a) { return csq_remove(a.queue, a.pass, named); }
static uint32_t routine_of(struct arguments a) {
    return csq_cancel_routine(a.queue, a.pass, irp_in(9, 0));
}
static uint32_t owed_of(struct arguments a) {
    return csq_cancel_owed(a.queue, a.pass, irp_in(9, 0));
}
static uint32_t file_of(struct arguments a) { return csq_close_file(a.queue, a.pass, 9); }
static uint32_t reuse_of(struct arguments a) {
    return csq_reuse(a.queue, a.pass, irp_in(9, 0), &first);
}
static uint32_t judged_removal_of(struct arguments a) {
    return csq_judge_remove(a.queue, a.pass, named, &first);
}
static uint32_t judged_end_of(struct arguments a) {
    return csq_judge_complete(a.queue, a.pass, named, 0, &first);
}
static uint32_t judged_insert_of(struct arguments a) {
    return csq_judge_insert(a.queue, a.pass, named, &first);
}
static uint32_t drop_of(struct arguments a) { return csq_abandon_pass(a.pass); }
static uint32_t holding_of(struct arguments a) { return csq_count_held(a.pass, &first, &second); }
static uint32_t mark_of(struct arguments a) { return csq_mark_cancel(a.pass, named, &first); }
static uint32_t complete_of(struct arguments a) {
    return csq_complete(a.pass, irp_in(9, 0), CSQ_STATUS_PENDING);
}
static uint32_t cancelled_of(struct arguments a) {
    return csq_complete_cancelled(a.pass, irp_in(9, 0));
}
static uint32_t flag_of(struct arguments a) { return csq_read_cancel(a.pass, 9, &first, &second); }
static uint32_t read_of(struct arguments a) { return csq_read_status(a.pass, 9, &first, &third); }

typedef uint32_t (*call)(struct arguments);

/* The calls that take a queue alone, of which some want it open; both; and a pass alone. csq_new
 * and csq_take_pass, which fill one, and csq_free, which takes an empty one, stand apart. */
static const call of_queue[] = { out_of,  close_of, len_of,    file_len_of, peek_of,
                                 judge_of, left_by,  listed_of, left_of };
static const call of_open[] = { out_of, close_of, len_of, file_len_of, peek_of, judge_of, left_by };
static const call of_both[] = { back_of,           insert_of,     put_back_of,      next_of,
                                remove_of,         routine_of,    owed_of,          file_of,
                                judged_removal_of, judged_end_of, judged_insert_of, reuse_of };
static const call of_pass[] = { drop_of,      holding_of, mark_of, complete_of,
                                cancelled_of, flag_of,    read_of };

#define EACH(calls) (size_t at = 0; at < sizeof(calls) / sizeof *(calls); at++)

static void no_out_was_written(void) {
    IS(first, UNWRITTEN);
    IS(second, UNWRITTEN);
    IS(third, UNWRITTEN);
    IS(named.irp, 0);
    IS(left.status, UNWRITTEN);
}

static void begin_outs(void) {
    first = second = third = left.status = UNWRITTEN;
    named.irp = named.life = 0;
}

static void every_call_refuses_an_empty_handle(void) {
    struct csq_queue queue = CSQ_EMPTY, none = CSQ_EMPTY;
    struct csq_pass pass = CSQ_EMPTY, nobody = CSQ_EMPTY;
    struct arguments neither = { &none, &nobody }, no_pass = { &queue, &nobody },
                     no_queue = { &none, &pass };
    IS(csq_new(&queue, &small), CSQ_OK);
    IS(csq_take_pass(&queue, &pass), CSQ_OK);
    begin_outs();
    for EACH(of_queue) {
        IS(of_queue[at](neither), CSQ_EMPTY_HANDLE);
    }
    for EACH(of_both) {
        IS(of_both[at](neither), CSQ_EMPTY_HANDLE);
        IS(of_both[at](no_pass), CSQ_EMPTY_HANDLE);
        IS(of_both[at](no_queue), CSQ_EMPTY_HANDLE);
    }
    for EACH(of_pass) {
        IS(of_pass[at](neither), CSQ_EMPTY_HANDLE);
    }
    IS(pass_of(neither), CSQ_EMPTY_HANDLE);
    IS(pass_of(no_queue), CSQ_EMPTY_HANDLE);
    no_out_was_written();
    CHECK(none.at == NULL && nobody.at == NULL);
    IS(csq_give_back(&queue, &pass), CSQ_OK);
    IS(csq_free(&queue), CSQ_OK);
}

static void a_filled_handle_is_not_filled_again(void) {
    struct csq_queue queue = CSQ_EMPTY;
    struct csq_pass pass = CSQ_EMPTY, other = CSQ_EMPTY;
    struct csq_size bad = { 0, 0, 0, 0, 0, 0 };
    uint32_t out = UNWRITTEN;
    struct arguments both = { &queue, &pass };
    IS(csq_new(&queue, &small), CSQ_OK);
    IS(csq_take_pass(&queue, &pass), CSQ_OK);
    IS(new_of(both), CSQ_NOT_EMPTY);
    IS(limited_of(both), CSQ_NOT_EMPTY);
    IS(csq_new(&queue, &bad), CSQ_NOT_EMPTY);
    IS(pass_of(both), CSQ_NOT_EMPTY);
    IS(csq_count_passes_out(&queue, &out), CSQ_OK);
    IS(out, 1);
    IS(csq_take_pass(&queue, &other), CSQ_OK);
    /* Also once there is no pass to hand out. */
    IS(pass_of(both), CSQ_NOT_EMPTY);
    IS(csq_give_back(&queue, &pass), CSQ_OK);
    IS(csq_give_back(&queue, &other), CSQ_OK);
    IS(csq_close(&queue), CSQ_OK);
    IS(new_of(both), CSQ_NOT_EMPTY);
    IS(csq_free(&queue), CSQ_OK);
}

static void what_was_freed_is_empty(void) {
    struct csq_queue queue = CSQ_EMPTY;
    struct csq_pass pass = CSQ_EMPTY;
    struct arguments both = { &queue, &pass };
    IS(csq_new(&queue, &small), CSQ_OK);
    IS(csq_take_pass(&queue, &pass), CSQ_OK);
    IS(csq_give_back(&queue, &pass), CSQ_OK);
    IS(csq_give_back(&queue, &pass), CSQ_EMPTY_HANDLE);
    IS(csq_abandon_pass(&pass), CSQ_EMPTY_HANDLE);
    IS(csq_free(&queue), CSQ_OK);
    IS(csq_close(&queue), CSQ_EMPTY_HANDLE);
    for EACH(of_both) {
        IS(of_both[at](both), CSQ_EMPTY_HANDLE);
    }
}

/* As free takes NULL. */
static void what_is_empty_is_freed_again(void) {
    struct csq_queue queue = CSQ_EMPTY;
    IS(csq_free(&queue), CSQ_OK);
    IS(csq_new(&queue, &small), CSQ_OK);
    IS(csq_free(&queue), CSQ_OK);
    CHECK(queue.at == NULL && queue.number == 0);
    IS(csq_free(&queue), CSQ_OK);
    IS(csq_free(NULL), CSQ_OK);
}

/* Two queues of one size, and a pass of each. */
struct pair {
    struct csq_queue queues[2];
    struct csq_pass passes[2];
};

static struct pair pair_by(call make) {
    struct pair pair = { { CSQ_EMPTY, CSQ_EMPTY }, { CSQ_EMPTY, CSQ_EMPTY } };
    for (int at = 0; at < 2; at++) {
        struct arguments queue = { &pair.queues[at], NULL };
        IS(make(queue), CSQ_OK);
        IS(pair.queues[at].number, (uintptr_t)pair.queues[at].at);
        IS(csq_take_pass(&pair.queues[at], &pair.passes[at]), CSQ_OK);
    }
    return pair;
}

static void end_pair(struct pair *pair) {
    for (int at = 0; at < 2; at++) {
        IS(csq_give_back(&pair->queues[at], &pair->passes[at]), CSQ_OK);
        IS(csq_free(&pair->queues[at]), CSQ_OK);
    }
}

static void refuse_the_other_pass(call make) {
    struct pair pair = pair_by(make);
    struct arguments crossed = { &pair.queues[0], &pair.passes[1] },
                     other = { &pair.queues[1], &pair.passes[0] };
    struct csq_irp irp = { UNWRITTEN, UNWRITTEN };
    IS(csq_insert(&pair.queues[0], &pair.passes[0], 0, 0, 0, &irp), CSQ_OK);
    begin_outs();
    for EACH(of_both) {
        IS(of_both[at](crossed), CSQ_OTHER_QUEUE);
        IS(of_both[at](other), CSQ_OTHER_QUEUE);
    }
    /* Also of an IRP that the pass holds, or owes, in its own queue. */
    IS(csq_remove(&pair.queues[0], &pair.passes[0], irp), CSQ_OK);
    IS(csq_put_back(&pair.queues[1], &pair.passes[0], irp, 0, &named), CSQ_OTHER_QUEUE);
    no_out_was_written();
    IS(csq_put_back(&pair.queues[0], &pair.passes[0], irp, 0, &irp), CSQ_OK);
    IS(csq_mark_cancel(&pair.passes[0], irp, &first), CSQ_OK);
    IS(first, 1);
    begin_outs();
    IS(csq_cancel_routine(&pair.queues[1], &pair.passes[0], irp), CSQ_OTHER_QUEUE);
    IS(csq_cancel_owed(&pair.queues[1], &pair.passes[0], irp), CSQ_OTHER_QUEUE);
    no_out_was_written();
    IS(csq_cancel_owed(&pair.queues[0], &pair.passes[0], irp), CSQ_OK);
    end_pair(&pair);
}

static void a_pass_of_another_queue_is_refused_before_anything_else(void) {
    refuse_the_other_pass(new_of);
    refuse_the_other_pass(limited_of);
}

/* The numbers in the handles say which queue a pass is of, and nothing else does. */
static void a_pass_is_known_by_the_number_of_its_queue(void) {
    struct pair pair = pair_by(new_of);
    struct arguments own = { &pair.queues[0], &pair.passes[0] };
    begin_outs();
    pair.queues[0].number ^= 1;
    for EACH(of_both) {
        IS(of_both[at](own), CSQ_OTHER_QUEUE);
    }
    pair.queues[0].number ^= 1;
    no_out_was_written();
    end_pair(&pair);
}

static uint32_t bare_of(struct arguments a) { return csq_new_queue(a.queue, &small); }
static uint32_t bare_limited_of(struct arguments a) {
    return csq_new_queue_with_file_limits(a.queue, &small, one_limit, 1);
}

/* A binding may leave the number out. Two such queues have the same number, so neither could tell
 * its passes from the other's. A queue without a number therefore hands out no pass, and returns
 * CSQ_EMPTY_HANDLE even if another refusal would fit too. */
static void refuse_a_pass_without_a_number(call make) {
    struct csq_queue queue = CSQ_EMPTY;
    struct csq_pass pass = CSQ_EMPTY;
    struct arguments both = { &queue, &pass };
    uint32_t out = UNWRITTEN;
    IS(make(both), CSQ_OK);
    IS(queue.number, 0);
    IS(pass_of(both), CSQ_EMPTY_HANDLE);
    CHECK(pass.at == NULL && pass.queue == 0);
    IS(csq_count_passes_out(&queue, &out), CSQ_OK);
    IS(out, 0);
    queue.number = (uintptr_t)queue.at;
    IS(pass_of(both), CSQ_OK);
    queue.number = 0;
    IS(pass_of(both), CSQ_EMPTY_HANDLE);
    queue.number = (uintptr_t)queue.at;
    IS(pass_of(both), CSQ_NOT_EMPTY);
    IS(csq_give_back(&queue, &pass), CSQ_OK);
    IS(csq_close(&queue), CSQ_OK);
    queue.number = 0;
    IS(pass_of(both), CSQ_EMPTY_HANDLE);
    IS(csq_free(&queue), CSQ_OK);
}

static void a_queue_without_a_number_hands_out_no_pass(void) {
    refuse_a_pass_without_a_number(bare_of);
    refuse_a_pass_without_a_number(bare_limited_of);
}

/* A queue that stands where another was is another: its memory may be the same. */
static void a_queue_made_after_another_is_another(void) {
    struct csq_queue queue = CSQ_EMPTY;
    struct csq_pass pass = CSQ_EMPTY, old = CSQ_EMPTY;
    struct arguments crossed = { &queue, &old };
    struct csq_queue moved = CSQ_EMPTY;
    IS(csq_new(&queue, &small), CSQ_OK);
    IS(csq_take_pass(&queue, &old), CSQ_OK);
    moved = queue;
    queue.at = NULL;
    IS(csq_new(&queue, &small), CSQ_OK);
    IS(csq_take_pass(&queue, &pass), CSQ_OK);
    for EACH(of_both) {
        IS(of_both[at](crossed), CSQ_OTHER_QUEUE);
    }
    IS(csq_give_back(&moved, &old), CSQ_OK);
    IS(csq_free(&moved), CSQ_OK);
    IS(csq_give_back(&queue, &pass), CSQ_OK);
    IS(csq_free(&queue), CSQ_OK);
}

/* A closed queue has no pass, so a pass is another's. */
static void a_closed_queue_refuses_every_other_call(void) {
    struct pair pair = pair_by(new_of);
    struct csq_pass nobody = CSQ_EMPTY;
    struct arguments both = { &pair.queues[0], &pair.passes[1] },
                     no_pass = { &pair.queues[0], &nobody };
    IS(csq_give_back(&pair.queues[0], &pair.passes[0]), CSQ_OK);
    IS(csq_close(&pair.queues[0]), CSQ_OK);
    begin_outs();
    for EACH(of_both) {
        IS(of_both[at](both), CSQ_OTHER_QUEUE);
        IS(of_both[at](no_pass), CSQ_EMPTY_HANDLE);
    }
    for EACH(of_open) {
        IS(of_open[at](both), CSQ_CLOSED);
    }
    IS(pass_of(both), CSQ_NOT_EMPTY);
    IS(pass_of(no_pass), CSQ_CLOSED);
    no_out_was_written();
    CHECK(pair.passes[1].at != NULL && nobody.at == NULL);
    IS(csq_free(&pair.queues[0]), CSQ_OK);
    IS(csq_give_back(&pair.queues[1], &pair.passes[1]), CSQ_OK);
    IS(csq_free(&pair.queues[1]), CSQ_OK);
}

static void no_lock(void *of) {
    (void)of;
}

static void what_takes_the_lock_itself_refuses_an_empty_queue(void) {
    struct csq_queue queue = CSQ_EMPTY, none = CSQ_EMPTY, freed = CSQ_EMPTY;
    struct csq_pass pass = CSQ_EMPTY, nobody = CSQ_EMPTY;
    struct csq_lock lock = { no_lock, no_lock, NULL };
    struct csq_irp irp = { 0, 0 };
    uint32_t completed = UNWRITTEN, held = UNWRITTEN, owed = UNWRITTEN;
    IS(csq_new(&freed, &small), CSQ_OK);
    IS(csq_free(&freed), CSQ_OK);
    IS(csq_new(&queue, &small), CSQ_OK);
    IS(csq_take_pass(&queue, &pass), CSQ_OK);
    IS(csq_insert(&queue, &pass, 0, 0, 0, &irp), CSQ_OK);
    IS(csq_cleanup(&none, &pass, 0, &lock, NULL, &completed), CSQ_EMPTY_HANDLE);
    IS(csq_drain(&none, &pass, CSQ_ANY, &lock, NULL, &completed), CSQ_EMPTY_HANDLE);
    IS(csq_cancel(&none, &pass, irp, &lock, NULL, &completed), CSQ_EMPTY_HANDLE);
    IS(csq_cancel(&freed, &pass, irp, &lock, NULL, &completed), CSQ_EMPTY_HANDLE);
    IS(csq_cancel(&queue, &nobody, irp, &lock, NULL, &completed), CSQ_EMPTY_HANDLE);
    IS(completed, UNWRITTEN);
    IS(csq_count_held(&pass, &held, &owed), CSQ_OK);
    IS(held + owed, 0);
    IS(csq_cancel(&queue, &pass, irp, &lock, NULL, &completed), CSQ_OK);
    IS(completed, 1);
    IS(csq_give_back(&queue, &pass), CSQ_OK);
    IS(csq_free(&queue), CSQ_OK);
}

static void only_a_closed_queue_reports_what_is_left(void) {
    struct csq_queue queue = CSQ_EMPTY;
    struct arguments alone = { &queue, NULL };
    IS(csq_new(&queue, &small), CSQ_OK);
    begin_outs();
    IS(listed_of(alone), CSQ_NOT_CLOSED);
    IS(left_of(alone), CSQ_NOT_CLOSED);
    IS(csq_read_left(&queue, 9, &left), CSQ_NOT_CLOSED);
    no_out_was_written();
    IS(csq_free(&queue), CSQ_OK);
}

static void left_is(struct csq_queue *queue, uint32_t irp, uint32_t life, uint32_t cancelled,
                    uint32_t completed, uint32_t status) {
    struct csq_left of = { UNWRITTEN, UNWRITTEN, UNWRITTEN, UNWRITTEN };
    IS(csq_read_left(queue, irp, &of), CSQ_OK);
    IS(of.life, life);
    IS(of.cancelled, cancelled);
    IS(of.completed, completed);
    IS(of.status, status);
}

static void the_list_is(struct csq_queue *queue, const uint32_t *irps, size_t count) {
    uint32_t after = CSQ_ANY, irp = UNWRITTEN;
    for (size_t at = 0; at < count; at++) {
        IS(csq_read_listed(queue, after, &irp), CSQ_OK);
        IS(irp, irps[at]);
        after = irp;
    }
    irp = UNWRITTEN;
    IS(csq_read_listed(queue, after, &irp), CSQ_NONE);
    IS(irp, UNWRITTEN);
}

/* IRP 0 is home and cancelled, 1 home, 2 completed, 3 completed as cancelled, 4 in its next life
 * and home, 5 and 6 listed, and 7 in its next life and listed first. */
static struct device device_to_close(uint32_t list) {
    struct csq_size size = size_of(8, 2, list);
    size.first_life = 3;
    struct device device = device_of(size);
    struct csq_irp context = { 2, 3 };
    uint32_t life = UNWRITTEN;
    IS(mark(&device, 0, 0, 3), 0);
    for (uint32_t irp = 2; irp < 7; irp++) {
        IS(put(&device, 0, irp, irp % 2), CSQ_OK);
    }
    IS(csq_remove(&device.queue, &device.passes[3], context), CSQ_OK);
    IS(csq_complete(&device.passes[3], irp_in(2, 3), 0xC0000001), CSQ_OK);
    IS(mark(&device, 1, 3, 3), 1);
    IS(mark(&device, 2, 4, 3), 1);
    IS(csq_cancel_routine(&device.queue, &device.passes[2], irp_in(4, 3)), CSQ_OK);
    IS(csq_complete_cancelled(&device.passes[2], irp_in(4, 3)), CSQ_OK);
    IS(csq_reuse(&device.queue, &device.passes[2], irp_in(4, 3), &life), CSQ_OK);
    IS(csq_insert(&device.queue, &device.passes[0], 7, 0, 1, &context), CSQ_OK);
    IS(take(&device, 1, 0), 7);
    IS(csq_complete(&device.passes[1], irp_in(7, 3), 5), CSQ_OK);
    IS(csq_reuse(&device.queue, &device.passes[2], irp_in(7, 3), &life), CSQ_OK);
    IS(csq_insert(&device.queue, &device.passes[0], 7, 0, 1, &context), CSQ_OK);
    settle(&device);
    return device;
}

static void a_closed_queue_reports_what_is_left(uint32_t list) {
    static const uint32_t listed[] = { 7, 5, 6 };
    struct device device = device_to_close(list);
    uint32_t irp = UNWRITTEN;
    IS(csq_close(&device.queue), CSQ_OK);
    the_list_is(&device.queue, listed, 3);
    IS(csq_read_listed(&device.queue, 2, &irp), CSQ_NOT_LISTED);
    IS(csq_read_listed(&device.queue, 0, &irp), CSQ_NOT_LISTED);
    IS(csq_read_listed(&device.queue, 8, &irp), CSQ_NOT_LISTED);
    IS(irp, UNWRITTEN);
    left_is(&device.queue, 0, 3, 1, 0, 0);
    left_is(&device.queue, 1, 3, 0, 0, 0);
    left_is(&device.queue, 2, 3, 0, 1, 0xC0000001);
    left_is(&device.queue, 3, 3, 1, 1, CSQ_STATUS_CANCELLED);
    left_is(&device.queue, 4, 4, 0, 0, 0);
    left_is(&device.queue, 5, 3, 0, 0, 0);
    left_is(&device.queue, 7, 4, 0, 0, 0);
    begin_outs();
    IS(csq_read_left(&device.queue, 8, &left), CSQ_UNKNOWN_IRP);
    IS(left.status, UNWRITTEN);
    IS(csq_free(&device.queue), CSQ_OK);
}

int main(void) {
    RUN(every_call_refuses_an_empty_handle);
    RUN(a_filled_handle_is_not_filled_again);
    RUN(what_was_freed_is_empty);
    RUN(what_is_empty_is_freed_again);
    RUN(a_pass_of_another_queue_is_refused_before_anything_else);
    RUN(a_pass_is_known_by_the_number_of_its_queue);
    RUN(a_queue_without_a_number_hands_out_no_pass);
    RUN(a_queue_made_after_another_is_another);
    RUN(a_closed_queue_refuses_every_other_call);
    RUN(what_takes_the_lock_itself_refuses_an_empty_queue);
    RUN(only_a_closed_queue_reports_what_is_left);
    RUN_BOTH(a_closed_queue_reports_what_is_left);
    return DONE();
}
