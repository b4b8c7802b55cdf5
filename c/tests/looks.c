/* What an open queue reports of its list. */
#include "check.h"

/* The number of the IRP that csq_peek_next stores, in the first life; CSQ_ANY if there is none. */
static uint32_t peek(const struct device *device, uint32_t after, uint32_t file) {
    struct csq_irp irp = { UNWRITTEN, UNWRITTEN };
    uint32_t code = csq_peek_next(&device->queue, after, file, &irp);
    CHECK(code == CSQ_OK ? irp.life == 0
                         : code == CSQ_NONE && irp.irp == UNWRITTEN && irp.life == UNWRITTEN);
    return code == CSQ_OK ? irp.irp : CSQ_ANY;
}

static void lens_are(const struct device *device, uint32_t all, uint32_t first, uint32_t second) {
    uint32_t len = UNWRITTEN;
    IS(csq_len(&device->queue, &len), CSQ_OK);
    IS(len, all);
    IS(csq_file_len(&device->queue, 0, &len), CSQ_OK);
    IS(len, first);
    IS(csq_file_len(&device->queue, 1, &len), CSQ_OK);
    IS(len, second);
}

static void an_empty_list_has_nothing(uint32_t list) {
    struct device device = device_of(size_of(2, 2, list));
    struct csq_irp irp = { UNWRITTEN, UNWRITTEN };
    uint32_t len = UNWRITTEN;
    lens_are(&device, 0, 0, 0);
    IS(peek(&device, CSQ_ANY, CSQ_ANY), CSQ_ANY);
    IS(peek(&device, CSQ_ANY, 1), CSQ_ANY);
    IS(csq_peek_next(&device.queue, 0, CSQ_ANY, &irp), CSQ_NOT_LISTED);
    IS(csq_peek_next(&device.queue, 2, CSQ_ANY, &irp), CSQ_NOT_LISTED);
    IS(irp.irp, UNWRITTEN);
    IS(csq_file_len(&device.queue, 2, &len), CSQ_UNKNOWN_FILE);
    IS(csq_file_len(&device.queue, CSQ_ANY, &len), CSQ_UNKNOWN_FILE);
    IS(len, UNWRITTEN);
    end(&device);
}

static void peeks_go_through_the_list_in_order(uint32_t list) {
    struct device device = device_of(size_of(5, 2, list));
    struct csq_irp context = { UNWRITTEN, UNWRITTEN };
    /* The list is 3 (file object 1), 0 (0), 1 (1), 2 (0). */
    for (uint32_t irp = 0; irp < 3; irp++) {
        put(&device, 0, irp, irp % 2);
    }
    IS(csq_insert(&device.queue, &device.passes[0], 3, 1, 1, &context), CSQ_OK);
    lens_are(&device, 4, 2, 2);
    IS(peek(&device, CSQ_ANY, CSQ_ANY), 3);
    IS(peek(&device, 3, CSQ_ANY), 0);
    IS(peek(&device, 0, CSQ_ANY), 1);
    IS(peek(&device, 1, CSQ_ANY), 2);
    IS(peek(&device, 2, CSQ_ANY), CSQ_ANY);
    IS(peek(&device, CSQ_ANY, 0), 0);
    IS(peek(&device, CSQ_ANY, 1), 3);
    IS(peek(&device, 3, 1), 1);
    IS(peek(&device, 1, 1), CSQ_ANY);
    /* Also after an IRP of another file object. */
    IS(peek(&device, 3, 0), 0);
    IS(peek(&device, 0, 1), 1);
    IS(peek(&device, 1, 0), 2);
    IS(peek(&device, 2, 1), CSQ_ANY);
    IS(peek(&device, CSQ_ANY, 2), CSQ_ANY);
    IS(peek(&device, 3, 2), CSQ_ANY);
    end(&device);
}

static void a_look_changes_nothing(uint32_t list) {
    struct device device = device_of(size_of(2, 2, list));
    void *queue = device.queue.at;
    put(&device, 0, 0, 0);
    put(&device, 0, 1, 1);
    for (int turn = 0; turn < 3; turn++) {
        IS(peek(&device, CSQ_ANY, CSQ_ANY), 0);
        IS(peek(&device, 0, CSQ_ANY), 1);
        lens_are(&device, 2, 1, 1);
    }
    CHECK(device.queue.at == queue);
    IS(take(&device, 0, CSQ_ANY), 0);
    lens_are(&device, 1, 0, 1);
    IS(peek(&device, CSQ_ANY, CSQ_ANY), 1);
    end(&device);
}

static void what_a_canceller_has_is_listed_until_its_routine_has_run(uint32_t list) {
    struct device device = device_of(size_of(2, 1, list));
    put(&device, 0, 0, 0);
    put(&device, 0, 1, 0);
    IS(mark(&device, 1, 0, 0), 1);
    IS(peek(&device, CSQ_ANY, 0), 0);
    IS(csq_cancel_routine(&device.queue, &device.passes[1], irp_in(0, 0)), CSQ_OK);
    IS(peek(&device, CSQ_ANY, 0), 1);
    end(&device);
}

static void a_peek_returns_the_present_life(uint32_t list) {
    struct csq_size size = size_of(1, 1, list);
    struct csq_irp irp = { UNWRITTEN, UNWRITTEN };
    uint32_t life = UNWRITTEN;
    size.first_life = 8;
    struct device device = device_of(size);
    put(&device, 0, 0, 0);
    IS(take(&device, 0, 0), 0);
    IS(csq_complete(&device.passes[0], irp_in(0, 8), 0), CSQ_OK);
    IS(csq_reuse(&device.queue, &device.passes[0], irp_in(0, 8), &life), CSQ_OK);
    IS(csq_peek_next(&device.queue, CSQ_ANY, CSQ_ANY, &irp), CSQ_NONE);
    put(&device, 0, 0, 0);
    IS(csq_peek_next(&device.queue, CSQ_ANY, CSQ_ANY, &irp), CSQ_OK);
    IS(irp.irp, 0);
    IS(irp.life, 9);
    /* So it names the IRP for a removal. */
    IS(csq_remove(&device.queue, &device.passes[1], irp), CSQ_OK);
    end(&device);
}

int main(void) {
    RUN_BOTH(an_empty_list_has_nothing);
    RUN_BOTH(peeks_go_through_the_list_in_order);
    RUN_BOTH(a_look_changes_nothing);
    RUN_BOTH(what_a_canceller_has_is_listed_until_its_routine_has_run);
    RUN_BOTH(a_peek_returns_the_present_life);
    return DONE();
}
