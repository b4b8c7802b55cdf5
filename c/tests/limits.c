/* The limit of a list and those of its file objects: met, and freed again by each way out of the
 * list. */
#include "check.h"

static struct device limited(uint32_t list, uint32_t limit, const uint32_t *file_limits,
                             uint32_t files) {
    struct csq_size size = { 8, files, limit, CHECK_PASSES, 0, list };
    struct device device = { CSQ_EMPTY, { CSQ_EMPTY, CSQ_EMPTY, CSQ_EMPTY, CSQ_EMPTY }, 8 };
    IS(csq_new_with_file_limits(&device.queue, &size, file_limits, files), CSQ_OK);
    hand_out(&device);
    return device;
}

static void the_list_has_its_limit(uint32_t list) {
    struct csq_size size = size_of(8, 2, list);
    size.limit = 2;
    struct device device = device_of(size);
    IS(put(&device, 0, 0, 0), CSQ_OK);
    IS(put(&device, 0, 1, 1), CSQ_OK);
    IS(put(&device, 0, 2, 0), CSQ_FULL);
    IS(take(&device, 0, 1), 1);
    IS(put(&device, 0, 2, 0), CSQ_OK);
    IS(put(&device, 0, 3, 0), CSQ_FULL);
    end(&device);
}

static void a_file_object_has_its_limit(uint32_t list) {
    static const uint32_t file_limits[] = { 1, 3 };
    struct device device = limited(list, 8, file_limits, 2);
    IS(put(&device, 0, 0, 0), CSQ_OK);
    IS(put(&device, 0, 1, 0), CSQ_FILE_FULL);
    IS(put(&device, 0, 1, 1), CSQ_OK);
    IS(put(&device, 0, 2, 1), CSQ_OK);
    IS(put(&device, 0, 3, 1), CSQ_OK);
    IS(put(&device, 0, 4, 1), CSQ_FILE_FULL);
    IS(take(&device, 0, 1), 1);
    IS(put(&device, 0, 4, 0), CSQ_FILE_FULL);
    IS(put(&device, 0, 4, 1), CSQ_OK);
    IS(csq_remove(&device.queue, &device.passes[0], irp_in(0, 0)), CSQ_OK);
    IS(put(&device, 0, 5, 0), CSQ_OK);
    IS(put(&device, 0, 6, 0), CSQ_FILE_FULL);
    end(&device);
}

/* An IRP that a canceller has counts as listed until its cancel routine has run. */
static void a_cancel_frees_its_place_by_its_routine(uint32_t list) {
    static const uint32_t file_limits[] = { 1 };
    struct device device = limited(list, 8, file_limits, 1);
    IS(put(&device, 0, 0, 0), CSQ_OK);
    IS(mark(&device, 1, 0, 0), 1);
    IS(put(&device, 0, 1, 0), CSQ_FILE_FULL);
    IS(csq_cancel_routine(&device.queue, &device.passes[1], irp_in(0, 0)), CSQ_OK);
    IS(put(&device, 0, 1, 0), CSQ_OK);
    end(&device);
}

static void an_insert_that_finds_a_cancel_takes_no_place(uint32_t list) {
    static const uint32_t file_limits[] = { 1 };
    struct device device = limited(list, 1, file_limits, 1);
    IS(mark(&device, 1, 0, 0), 0);
    IS(put(&device, 0, 0, 0), CSQ_CANCELLED);
    IS(put(&device, 0, 1, 0), CSQ_OK);
    IS(mark(&device, 1, 2, 0), 0);
    IS(put(&device, 0, 2, 0), CSQ_FILE_FULL);
    IS(take(&device, 0, 0), 1);
    IS(put(&device, 0, 2, 0), CSQ_CANCELLED);
    end(&device);
}

int main(void) {
    RUN_BOTH(the_list_has_its_limit);
    RUN_BOTH(a_file_object_has_its_limit);
    RUN_BOTH(a_cancel_frees_its_place_by_its_routine);
    RUN_BOTH(an_insert_that_finds_a_cancel_takes_no_place);
    return DONE();
}
