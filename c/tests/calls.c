/* What each call does where it isn't refused, over both lists. */
#include "check.h"

static void inserts_at_the_back_and_at_the_front(uint32_t list) {
    struct device device = device_of(size_of(5, 2, list));
    struct csq_irp context = { UNWRITTEN, UNWRITTEN };
    IS(put(&device, 0, 0, 0), CSQ_OK);
    IS(put(&device, 1, 1, 1), CSQ_OK);
    IS(csq_insert(&device.queue, &device.passes[0], 2, 0, 1, &context), CSQ_OK);
    IS(context.irp, 2);
    IS(context.life, 0);
    /* Any number but 0 is the front. */
    IS(csq_insert(&device.queue, &device.passes[0], 3, 1, 1u << 31, &context), CSQ_OK);
    IS(put(&device, 0, 4, 0), CSQ_OK);
    IS(take(&device, 2, CSQ_ANY), 3);
    IS(take(&device, 2, 0), 2);
    IS(take(&device, 2, 1), 1);
    IS(take(&device, 2, CSQ_ANY), 0);
    IS(take(&device, 2, 1), CSQ_ANY);
    IS(take(&device, 2, 2), CSQ_ANY);
    IS(take(&device, 2, 0), 4);
    IS(take(&device, 2, CSQ_ANY), CSQ_ANY);
    end(&device);
}

static void removes_what_a_context_names(uint32_t list) {
    struct device device = device_of(size_of(3, 1, list));
    struct csq_irp context = { UNWRITTEN, UNWRITTEN };
    struct csq_irp another_life = { 1, 1 }, unknown = { 3, 0 };
    put(&device, 0, 0, 0);
    IS(csq_insert(&device.queue, &device.passes[0], 1, 0, 0, &context), CSQ_OK);
    put(&device, 0, 2, 0);
    IS(csq_remove(&device.queue, &device.passes[1], another_life), CSQ_NONE);
    IS(csq_remove(&device.queue, &device.passes[1], unknown), CSQ_NONE);
    IS(csq_remove(&device.queue, &device.passes[1], context), CSQ_OK);
    IS(csq_remove(&device.queue, &device.passes[1], context), CSQ_NONE);
    IS(csq_complete(&device.passes[0], irp_in(1, 0), 0), CSQ_NOT_HELD);
    IS(csq_complete(&device.passes[1], irp_in(1, 0), 0), CSQ_OK);
    IS(csq_remove(&device.queue, &device.passes[1], context), CSQ_NONE);
    IS(take(&device, 0, CSQ_ANY), 0);
    IS(take(&device, 0, CSQ_ANY), 2);
    end(&device);
}

static void cancels_what_is_listed(uint32_t list) {
    struct device device = device_of(size_of(3, 1, list));
    struct csq_irp first = { 0, 0 };
    put(&device, 0, 0, 0);
    put(&device, 0, 1, 0);
    IS(mark(&device, 1, 0, 0), 1);
    /* It is still listed, and neither a removal nor another cancel gets it. */
    IS(csq_remove(&device.queue, &device.passes[2], first), CSQ_NONE);
    IS(mark(&device, 2, 0, 0), 0);
    IS(mark(&device, 1, 0, 0), 0);
    IS(take(&device, 2, CSQ_ANY), 1);
    IS(take(&device, 2, 0), CSQ_ANY);
    IS(csq_cancel_routine(&device.queue, &device.passes[2], irp_in(0, 0)), CSQ_NOT_OWED);
    IS(csq_complete_cancelled(&device.passes[1], irp_in(0, 0)), CSQ_NOT_HELD);
    IS(csq_cancel_routine(&device.queue, &device.passes[1], irp_in(0, 0)), CSQ_OK);
    IS(csq_cancel_routine(&device.queue, &device.passes[1], irp_in(0, 0)), CSQ_NOT_OWED);
    IS(csq_complete(&device.passes[1], irp_in(0, 0), 0), CSQ_NOT_REMOVED);
    IS(csq_complete_cancelled(&device.passes[1], irp_in(0, 0)), CSQ_OK);
    IS(csq_complete_cancelled(&device.passes[1], irp_in(0, 0)), CSQ_NOT_HELD);
    end(&device);
}

static void an_insert_finds_a_cancel(uint32_t list) {
    struct device device = device_of(size_of(2, 1, list));
    struct csq_irp context = { UNWRITTEN, UNWRITTEN };
    uint32_t held = 0, owed = 1;
    IS(mark(&device, 1, 1, 0), 0);
    IS(csq_insert(&device.queue, &device.passes[0], 1, 0, 0, &context), CSQ_CANCELLED);
    IS(context.irp, 1);
    IS(context.life, 0);
    IS(csq_count_held(&device.passes[0], &held, &owed), CSQ_OK);
    IS(held, 1);
    IS(owed, 0);
    IS(take(&device, 2, CSQ_ANY), CSQ_ANY);
    IS(csq_complete(&device.passes[0], irp_in(1, 0), 0), CSQ_NOT_REMOVED);
    IS(csq_complete_cancelled(&device.passes[0], irp_in(1, 0)), CSQ_OK);
    IS(put(&device, 0, 1, 0), CSQ_NOT_HOME);
    end(&device);
}

static void a_cancel_of_what_is_held_is_too_late(uint32_t list) {
    struct device device = device_of(size_of(1, 1, list));
    uint32_t life = UNWRITTEN, status = UNWRITTEN, cancelled = UNWRITTEN;
    put(&device, 0, 0, 0);
    IS(take(&device, 1, 0), 0);
    IS(mark(&device, 2, 0, 0), 0);
    IS(csq_complete(&device.passes[1], irp_in(0, 0), 0x40000000), CSQ_OK);
    IS(mark(&device, 2, 0, 0), 0);
    IS(csq_read_status(&device.passes[0], 0, &life, &status), CSQ_OK);
    IS(life, 0);
    IS(status, 0x40000000);
    IS(csq_read_cancel(&device.passes[0], 0, &life, &cancelled), CSQ_OK);
    IS(cancelled, 1);
    end(&device);
}

static void completes_with_any_final_status(uint32_t list) {
    static const uint32_t statuses[] = { 0, 1, 0x102, 0x104, CSQ_STATUS_CANCELLED, UINT32_MAX };
    struct device device = device_of(size_of(7, 1, list));
    uint32_t life = UNWRITTEN, status = UNWRITTEN;
    for (uint32_t irp = 0; irp < 6; irp++) {
        put(&device, 0, irp, 0);
        IS(take(&device, 0, CSQ_ANY), irp);
        IS(csq_complete(&device.passes[0], irp_in(irp, 0), CSQ_STATUS_PENDING), CSQ_NOT_FINAL);
        IS(csq_read_status(&device.passes[3], irp, &life, &status), CSQ_NONE);
        IS(life, 0);
        IS(status, UNWRITTEN);
        IS(csq_complete(&device.passes[0], irp_in(irp, 0), statuses[irp]), CSQ_OK);
        status_of(&device, irp, statuses[irp]);
        life = UNWRITTEN;
    }
    /* What a removal got may be completed as cancelled too. */
    put(&device, 0, 6, 0);
    IS(take(&device, 0, CSQ_ANY), 6);
    IS(csq_complete_cancelled(&device.passes[0], irp_in(6, 0)), CSQ_OK);
    status_of(&device, 6, CSQ_STATUS_CANCELLED);
    end(&device);
}

static void counts_what_a_pass_holds_and_owes(uint32_t list) {
    struct device device = device_of(size_of(8, 1, list));
    uint32_t held = UNWRITTEN, owed = UNWRITTEN;
    for (uint32_t irp = 0; irp < 8; irp++) {
        put(&device, 0, irp, 0);
    }
    IS(mark(&device, 1, 1, 0), 1);
    IS(mark(&device, 1, 5, 0), 1);
    IS(mark(&device, 1, 7, 0), 1);
    IS(take(&device, 1, 0), 0);
    IS(take(&device, 1, 0), 2);
    IS(csq_cancel_routine(&device.queue, &device.passes[1], irp_in(5, 0)), CSQ_OK);
    IS(csq_count_held(&device.passes[1], &held, &owed), CSQ_OK);
    IS(held, 3);
    IS(owed, 2);
    IS(csq_complete(&device.passes[1], irp_in(0, 0), 0), CSQ_OK);
    IS(csq_complete_cancelled(&device.passes[1], irp_in(5, 0)), CSQ_OK);
    IS(csq_count_held(&device.passes[1], &held, &owed), CSQ_OK);
    IS(held, 1);
    IS(owed, 2);
    IS(csq_count_held(&device.passes[0], &held, &owed), CSQ_OK);
    IS(held, 0);
    IS(owed, 0);
    end(&device);
}

static void closes_a_file_object_for_good(uint32_t list) {
    struct device device = device_of(size_of(4, 2, list));
    put(&device, 0, 0, 0);
    put(&device, 0, 1, 1);
    IS(csq_close_file(&device.queue, &device.passes[1], 0), CSQ_OK);
    IS(csq_close_file(&device.queue, &device.passes[1], 0), CSQ_OK);
    IS(put(&device, 0, 2, 0), CSQ_FILE_CLOSED);
    IS(put(&device, 0, 2, 1), CSQ_OK);
    /* What was listed for it can still be removed. */
    IS(take(&device, 1, 0), 0);
    IS(take(&device, 1, 0), CSQ_ANY);
    IS(csq_complete_cancelled(&device.passes[1], irp_in(0, 0)), CSQ_OK);
    IS(put(&device, 0, 3, 0), CSQ_FILE_CLOSED);
    end(&device);
}

static void hands_a_pass_out_again_once_it_is_back(uint32_t list) {
    struct csq_size size = { 2, 1, 2, 2, 0, list };
    struct csq_queue queue = CSQ_EMPTY;
    struct csq_pass one = CSQ_EMPTY, two = CSQ_EMPTY, three = CSQ_EMPTY;
    uint32_t out = UNWRITTEN;
    IS(csq_new(&queue, &size), CSQ_OK);
    IS(csq_count_passes_out(&queue, &out), CSQ_OK);
    IS(out, 0);
    IS(csq_take_pass(&queue, &one), CSQ_OK);
    IS(csq_give_back(&queue, &one), CSQ_OK);
    CHECK(one.at == NULL);
    IS(csq_take_pass(&queue, &two), CSQ_OK);
    IS(csq_count_passes_out(&queue, &out), CSQ_OK);
    IS(out, 1);
    IS(csq_take_pass(&queue, &one), CSQ_OK);
    IS(csq_take_pass(&queue, &three), CSQ_NO_PASS);
    CHECK(three.at == NULL);
    IS(csq_free(&queue), CSQ_PASSES_OUT);
    IS(csq_give_back(&queue, &two), CSQ_OK);
    IS(csq_take_pass(&queue, &three), CSQ_OK);
    IS(csq_count_passes_out(&queue, &out), CSQ_OK);
    IS(out, 2);
    IS(csq_give_back(&queue, &one), CSQ_OK);
    IS(csq_give_back(&queue, &three), CSQ_OK);
    IS(csq_count_passes_out(&queue, &out), CSQ_OK);
    IS(out, 0);
    IS(csq_free(&queue), CSQ_OK);
    /* The handle may be filled again. */
    IS(csq_new(&queue, &size), CSQ_OK);
    IS(csq_free(&queue), CSQ_OK);
}

/* A pass that came back knows nothing of what it did, and does as any other. */
static void a_pass_that_came_back_goes_on(uint32_t list) {
    struct device device = device_of(size_of(2, 1, list));
    struct csq_pass *by = &device.passes[1];
    uint32_t held = UNWRITTEN, owed = UNWRITTEN;
    for (uint32_t turn = 0; turn < 100; turn++) {
        struct csq_irp irp = { UNWRITTEN, UNWRITTEN };
        uint32_t life = UNWRITTEN;
        IS(put(&device, 1, turn % 2, 0), CSQ_OK);
        IS(csq_give_back(&device.queue, by), CSQ_OK);
        IS(csq_take_pass(&device.queue, by), CSQ_OK);
        IS(csq_count_held(by, &held, &owed), CSQ_OK);
        IS(held + owed, 0);
        IS(csq_remove_next(&device.queue, by, 0, &irp), CSQ_OK);
        IS(irp.irp, turn % 2);
        IS(irp.life, turn / 2);
        IS(csq_complete(by, irp, 0), CSQ_OK);
        IS(csq_reuse(&device.queue, by, irp, &life), CSQ_OK);
    }
    end(&device);
}

/* Its queue is left as it is: that is what such a pass is for. */
static void frees_a_pass_that_stays_out(void) {
    static struct csq_queue queue = CSQ_EMPTY;
    struct csq_size size = { 2, 1, 2, 2, 0, CSQ_CHAINS };
    struct csq_pass one = CSQ_EMPTY, two = CSQ_EMPTY;
    struct csq_irp irp = { 0, 0 };
    uint32_t out = UNWRITTEN;
    IS(csq_new(&queue, &size), CSQ_OK);
    IS(csq_take_pass(&queue, &one), CSQ_OK);
    IS(csq_insert(&queue, &one, 0, 0, 0, &irp), CSQ_OK);
    IS(csq_remove_next(&queue, &one, CSQ_ANY, &irp), CSQ_OK);
    IS(csq_abandon_pass(&one), CSQ_HOLDING);
    IS(csq_complete(&one, irp_in(0, 0), 0), CSQ_OK);
    IS(csq_abandon_pass(&one), CSQ_OK);
    CHECK(one.at == NULL);
    IS(csq_count_passes_out(&queue, &out), CSQ_OK);
    IS(out, 1);
    IS(csq_take_pass(&queue, &two), CSQ_OK);
    IS(csq_give_back(&queue, &two), CSQ_OK);
    IS(csq_free(&queue), CSQ_PASSES_OUT);
    IS(csq_close(&queue), CSQ_PASSES_OUT);
}

int main(void) {
    RUN_BOTH(inserts_at_the_back_and_at_the_front);
    RUN_BOTH(removes_what_a_context_names);
    RUN_BOTH(cancels_what_is_listed);
    RUN_BOTH(an_insert_finds_a_cancel);
    RUN_BOTH(a_cancel_of_what_is_held_is_too_late);
    RUN_BOTH(completes_with_any_final_status);
    RUN_BOTH(counts_what_a_pass_holds_and_owes);
    RUN_BOTH(closes_a_file_object_for_good);
    RUN_BOTH(hands_a_pass_out_again_once_it_is_back);
    RUN_BOTH(a_pass_that_came_back_goes_on);
    RUN(frees_a_pass_that_stays_out);
    return DONE();
}
