/* IRPs that are used again, and calls that name an older or a later life. */
#include "check.h"

static void reuse(struct device *device, uint32_t irp, uint32_t want) {
    uint32_t life = UNWRITTEN;
    IS(csq_reuse(&device->queue, &device->passes[3], irp_in(irp, want - 1), &life), CSQ_OK);
    IS(life, want);
}

static void reads(struct device *device, uint32_t irp, uint32_t want_life,
                  uint32_t want_cancelled) {
    uint32_t life = UNWRITTEN, cancelled = UNWRITTEN, status = UNWRITTEN;
    IS(csq_read_cancel(&device->passes[2], irp, &life, &cancelled), CSQ_OK);
    IS(life, want_life);
    IS(cancelled, want_cancelled);
    life = UNWRITTEN;
    IS(csq_read_status(&device->passes[2], irp, &life, &status), CSQ_NONE);
    IS(life, want_life);
    IS(status, UNWRITTEN);
}

static void a_completed_irp_is_used_again(uint32_t list) {
    struct device device = device_of(size_of(2, 1, list));
    for (uint32_t life = 0; life < 100; life++) {
        reads(&device, 1, life, 0);
        IS(put(&device, 0, 1, 0), CSQ_OK);
        if (life % 2) {
            IS(mark(&device, 1, 1, life), 1);
            reads(&device, 1, life, 1);
            IS(csq_cancel_routine(&device.queue, &device.passes[1], irp_in(1, life)), CSQ_OK);
            IS(csq_complete_cancelled(&device.passes[1], irp_in(1, life)), CSQ_OK);
        } else {
            IS(take(&device, 1, 0), 1);
            IS(csq_complete(&device.passes[1], irp_in(1, life), life), CSQ_OK);
        }
        reuse(&device, 1, life + 1);
    }
    reads(&device, 0, 0, 0);
    end(&device);
}

static void only_a_completed_irp_is_used_again(uint32_t list) {
    struct device device = device_of(size_of(3, 1, list));
    uint32_t life = UNWRITTEN;
    struct csq_pass *by = &device.passes[0];
    struct csq_irp first = irp_in(0, 0);
    IS(csq_reuse(&device.queue, by, first, &life), CSQ_NOT_COMPLETED);
    put(&device, 0, 0, 0);
    IS(csq_reuse(&device.queue, by, first, &life), CSQ_NOT_COMPLETED);
    IS(mark(&device, 0, 0, 0), 1);
    IS(csq_reuse(&device.queue, by, first, &life), CSQ_NOT_COMPLETED);
    IS(csq_cancel_routine(&device.queue, by, first), CSQ_OK);
    IS(csq_reuse(&device.queue, by, first, &life), CSQ_NOT_COMPLETED);
    IS(csq_complete_cancelled(by, first), CSQ_OK);
    IS(csq_reuse(&device.queue, by, irp_in(3, 0), &life), CSQ_UNKNOWN_IRP);
    IS(life, UNWRITTEN);
    reuse(&device, 0, 1);
    IS(csq_reuse(&device.queue, by, irp_in(0, 1), &life), CSQ_NOT_COMPLETED);
    IS(life, UNWRITTEN);
    end(&device);
}

static void a_late_cancel_takes_nothing_of_a_newer_life(uint32_t list) {
    struct device device = device_of(size_of(1, 1, list));
    struct csq_irp old = { 0, 0 }, later = { 0, 2 }, present = { 0, 1 };
    uint32_t found = UNWRITTEN;
    put(&device, 0, 0, 0);
    take(&device, 0, 0);
    IS(csq_complete(&device.passes[0], irp_in(0, 0), 0), CSQ_OK);
    /* Before the reuse the old life is the present one, and has no routine. */
    IS(mark(&device, 1, 0, 0), 0);
    reuse(&device, 0, 1);
    IS(csq_mark_cancel(&device.passes[1], old, &found), CSQ_STALE);
    IS(csq_mark_cancel(&device.passes[1], later, &found), CSQ_STALE);
    IS(found, UNWRITTEN);
    reads(&device, 0, 1, 0);
    IS(put(&device, 0, 0, 0), CSQ_OK);
    IS(csq_mark_cancel(&device.passes[1], old, &found), CSQ_STALE);
    IS(csq_remove(&device.queue, &device.passes[1], old), CSQ_NONE);
    IS(csq_remove(&device.queue, &device.passes[1], later), CSQ_NONE);
    reads(&device, 0, 1, 0);
    IS(csq_remove(&device.queue, &device.passes[1], present), CSQ_OK);
    end(&device);
}

/* Each call that names an IRP refuses it in a life that is over, and in one to come. */
static void what_names_another_life_is_refused(uint32_t list) {
    static const uint32_t others[] = { 4, 6, UINT32_MAX };
    struct csq_size size = size_of(2, 1, list);
    size.first_life = 5;
    struct device device = device_of(size);
    struct csq_pass *by = &device.passes[0];
    uint32_t life = UNWRITTEN, found = UNWRITTEN;
    put(&device, 0, 0, 0);
    put(&device, 0, 1, 0);
    IS(take(&device, 0, CSQ_ANY), 0);
    IS(mark(&device, 0, 1, 5), 1);
    for (size_t at = 0; at < sizeof others / sizeof *others; at++) {
        struct csq_irp held = irp_in(0, others[at]), owed = irp_in(1, others[at]);
        IS(csq_complete(by, held, 0), CSQ_NOT_HELD);
        IS(csq_complete_cancelled(by, held), CSQ_NOT_HELD);
        IS(csq_cancel_routine(&device.queue, by, owed), CSQ_NOT_OWED);
        IS(csq_cancel_owed(&device.queue, by, owed), CSQ_NOT_OWED);
        IS(csq_mark_cancel(by, held, &found), CSQ_STALE);
        IS(csq_reuse(&device.queue, by, held, &life), CSQ_STALE);
    }
    IS(csq_complete(by, irp_in(0, 5), 0), CSQ_OK);
    IS(csq_reuse(&device.queue, by, irp_in(0, 4), &life), CSQ_STALE);
    IS(csq_reuse(&device.queue, by, irp_in(0, 6), &life), CSQ_STALE);
    IS(csq_cancel_owed(&device.queue, by, irp_in(1, 5)), CSQ_OK);
    IS(life, UNWRITTEN);
    IS(found, UNWRITTEN);
    end(&device);
}

static void contexts_name_the_present_life(uint32_t list) {
    struct csq_size size = size_of(2, 1, list);
    size.first_life = 77;
    struct device device = device_of(size);
    struct csq_irp context = { UNWRITTEN, UNWRITTEN };
    IS(csq_insert(&device.queue, &device.passes[0], 1, 0, 0, &context), CSQ_OK);
    IS(context.irp, 1);
    IS(context.life, 77);
    context.life = UNWRITTEN;
    IS(csq_remove_next(&device.queue, &device.passes[0], CSQ_ANY, &context), CSQ_OK);
    IS(context.irp, 1);
    IS(context.life, 77);
    IS(csq_complete(&device.passes[0], context, 0), CSQ_OK);
    reuse(&device, 1, 78);
    IS(mark(&device, 1, 1, 78), 0);
    IS(csq_insert(&device.queue, &device.passes[0], 1, 0, 0, &context), CSQ_CANCELLED);
    IS(context.life, 78);
    /* What an insert found cancelled is used again too, with its flag clear. */
    IS(csq_complete_cancelled(&device.passes[0], context), CSQ_OK);
    reuse(&device, 1, 79);
    reads(&device, 1, 79, 0);
    end(&device);
}

static void the_last_life_is_the_end(uint32_t list) {
    struct csq_size size = size_of(2, 1, list);
    struct csq_irp last = irp_in(0, CSQ_LAST_LIFE);
    uint32_t life = UNWRITTEN, status = UNWRITTEN;
    size.first_life = CSQ_LAST_LIFE - 1;
    struct device device = device_of(size);
    put(&device, 0, 0, 0);
    take(&device, 0, 0);
    IS(csq_complete(&device.passes[0], irp_in(0, CSQ_LAST_LIFE - 1), UINT32_MAX), CSQ_OK);
    reuse(&device, 0, CSQ_LAST_LIFE);
    reads(&device, 0, CSQ_LAST_LIFE, 0);
    put(&device, 0, 0, 0);
    IS(mark(&device, 1, 0, CSQ_LAST_LIFE), 1);
    IS(csq_cancel_routine(&device.queue, &device.passes[1], last), CSQ_OK);
    IS(csq_reuse(&device.queue, &device.passes[0], last, &life), CSQ_NOT_COMPLETED);
    IS(csq_complete_cancelled(&device.passes[1], last), CSQ_OK);
    IS(csq_reuse(&device.queue, &device.passes[0], last, &life), CSQ_LIVES_SPENT);
    IS(life, UNWRITTEN);
    IS(csq_read_status(&device.passes[0], 0, &life, &status), CSQ_OK);
    IS(life, CSQ_LAST_LIFE);
    IS(status, CSQ_STATUS_CANCELLED);
    IS(put(&device, 0, 0, 0), CSQ_NOT_HOME);
    end(&device);
}

static void not_completed_is_returned_before_lives_spent(uint32_t list) {
    struct csq_size size = size_of(1, 1, list);
    struct csq_irp last = irp_in(0, CSQ_LAST_LIFE);
    uint32_t life = UNWRITTEN;
    size.first_life = CSQ_LAST_LIFE;
    struct device device = device_of(size);
    struct csq_pass *by = &device.passes[0];
    IS(csq_reuse(&device.queue, by, last, &life), CSQ_NOT_COMPLETED);
    put(&device, 0, 0, 0);
    IS(csq_reuse(&device.queue, by, last, &life), CSQ_NOT_COMPLETED);
    IS(take(&device, 0, 0), 0);
    IS(csq_reuse(&device.queue, by, last, &life), CSQ_NOT_COMPLETED);
    IS(csq_complete(by, last, 0), CSQ_OK);
    IS(csq_reuse(&device.queue, by, last, &life), CSQ_LIVES_SPENT);
    IS(life, UNWRITTEN);
    end(&device);
}

/* What a pass held and owed in one life it neither completes nor takes out in the next one, and the
 * other way round. */
static void what_is_held_or_owed_is_so_in_its_life(uint32_t list) {
    struct device device = device_of(size_of(2, 1, list));
    struct csq_pass *by = &device.passes[0];
    uint32_t held = UNWRITTEN, owed = UNWRITTEN;
    for (uint32_t life = 0; life < 3; life++) {
        uint32_t other = life ? life - 1 : 1;
        put(&device, 0, 0, 0);
        put(&device, 0, 1, 0);
        IS(take(&device, 0, 0), 0);
        IS(mark(&device, 0, 1, life), 1);
        IS(csq_complete(by, irp_in(0, other), 0), CSQ_NOT_HELD);
        IS(csq_complete_cancelled(by, irp_in(0, other)), CSQ_NOT_HELD);
        IS(csq_cancel_routine(&device.queue, by, irp_in(1, other)), CSQ_NOT_OWED);
        IS(csq_cancel_owed(&device.queue, by, irp_in(1, other)), CSQ_NOT_OWED);
        IS(csq_count_held(by, &held, &owed), CSQ_OK);
        IS(held, 1);
        IS(owed, 1);
        IS(csq_complete_cancelled(by, irp_in(0, life)), CSQ_OK);
        IS(csq_cancel_owed(&device.queue, by, irp_in(1, life)), CSQ_OK);
        reuse(&device, 0, life + 1);
        reuse(&device, 1, life + 1);
    }
    end(&device);
}

static void lives_of_irps_are_their_own(uint32_t list) {
    struct device device = device_of(size_of(4, 1, list));
    for (uint32_t turn = 0; turn < 24; turn++) {
        for (uint32_t irp = 0; irp < 4; irp++) {
            if (turn % (irp + 1) == 0) {
                IS(put(&device, 0, irp, 0), CSQ_OK);
                IS(take(&device, 1, 0), irp);
                IS(csq_complete(&device.passes[1], irp_in(irp, turn / (irp + 1)), 0), CSQ_OK);
                reuse(&device, irp, turn / (irp + 1) + 1);
            }
        }
    }
    for (uint32_t irp = 0; irp < 4; irp++) {
        reads(&device, irp, 24 / (irp + 1), 0);
    }
    end(&device);
}

int main(void) {
    RUN_BOTH(a_completed_irp_is_used_again);
    RUN_BOTH(only_a_completed_irp_is_used_again);
    RUN_BOTH(a_late_cancel_takes_nothing_of_a_newer_life);
    RUN_BOTH(what_names_another_life_is_refused);
    RUN_BOTH(contexts_name_the_present_life);
    RUN_BOTH(the_last_life_is_the_end);
    RUN_BOTH(not_completed_is_returned_before_lives_spent);
    RUN_BOTH(what_is_held_or_owed_is_so_in_its_life);
    RUN_BOTH(lives_of_irps_are_their_own);
    return DONE();
}
