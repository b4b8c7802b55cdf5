/* Each cause of a refusal, in the order in which they are tested, and that a refusal changes
 * nothing. */
#include "check.h"

static void an_insert_is_refused_for_its_first_cause(uint32_t list) {
    static const uint32_t file_limits[] = { 1, 4, 4, 4 };
    struct csq_size size = { 4, 4, 2, CHECK_PASSES, 0, list };
    struct device device = { CSQ_EMPTY, { CSQ_EMPTY, CSQ_EMPTY, CSQ_EMPTY, CSQ_EMPTY }, 4 };
    struct csq_irp context = { UNWRITTEN, UNWRITTEN };
    struct csq_pass *by = &device.passes[0];
    IS(csq_new_with_file_limits(&device.queue, &size, file_limits, 4), CSQ_OK);
    hand_out(&device);
    IS(put(&device, 0, 0, 0), CSQ_OK);
    IS(put(&device, 0, 1, 1), CSQ_OK);
    IS(csq_close_file(&device.queue, by, 2), CSQ_OK);
    /* The list is full throughout, and the file object of 0 too. */
    IS(csq_insert(&device.queue, by, 4, 4, 0, &context), CSQ_UNKNOWN_IRP);
    IS(csq_insert(&device.queue, by, UINT32_MAX, 0, 0, &context), CSQ_UNKNOWN_IRP);
    IS(csq_insert(&device.queue, by, 0, 4, 0, &context), CSQ_UNKNOWN_FILE);
    IS(csq_insert(&device.queue, by, 0, CSQ_ANY, 0, &context), CSQ_UNKNOWN_FILE);
    IS(csq_insert(&device.queue, by, 0, 2, 0, &context), CSQ_NOT_HOME);
    IS(csq_insert(&device.queue, by, 2, 2, 0, &context), CSQ_FILE_CLOSED);
    IS(csq_insert(&device.queue, by, 2, 0, 0, &context), CSQ_FILE_FULL);
    IS(csq_insert(&device.queue, by, 2, 1, 1, &context), CSQ_FULL);
    IS(csq_close_file(&device.queue, by, 0), CSQ_OK);
    IS(csq_insert(&device.queue, by, 2, 0, 0, &context), CSQ_FILE_CLOSED);
    IS(context.irp, UNWRITTEN);
    IS(context.life, UNWRITTEN);
    /* A refused IRP is home still, and the list as it was. */
    IS(take(&device, 1, CSQ_ANY), 0);
    IS(csq_insert(&device.queue, by, 2, 1, 0, &context), CSQ_OK);
    IS(take(&device, 1, CSQ_ANY), 1);
    IS(take(&device, 1, CSQ_ANY), 2);
    IS(take(&device, 1, CSQ_ANY), CSQ_ANY);
    end(&device);
}

static void a_refused_insert_leaves_a_cancel_where_it_is(uint32_t list) {
    struct device device = device_of(size_of(2, 2, list));
    IS(csq_close_file(&device.queue, &device.passes[0], 0), CSQ_OK);
    IS(mark(&device, 1, 0, 0), 0);
    IS(put(&device, 0, 0, 0), CSQ_FILE_CLOSED);
    IS(put(&device, 0, 0, 1), CSQ_CANCELLED);
    end(&device);
}

static void a_completion_is_refused_for_its_first_cause(uint32_t list) {
    struct device device = device_of(size_of(4, 1, list));
    struct csq_pass *by = &device.passes[0];
    put(&device, 0, 0, 0);
    put(&device, 0, 1, 0);
    IS(mark(&device, 0, 2, 0), 0);
    IS(put(&device, 0, 2, 0), CSQ_CANCELLED);
    IS(mark(&device, 0, 1, 0), 1);
    IS(take(&device, 0, CSQ_ANY), 0);
    IS(csq_complete(by, irp_in(4, 0), CSQ_STATUS_PENDING), CSQ_UNKNOWN_IRP);
    IS(csq_complete(by, irp_in(UINT32_MAX, 0), 0), CSQ_UNKNOWN_IRP);
    IS(csq_complete(by, irp_in(3, 0), CSQ_STATUS_PENDING), CSQ_NOT_HELD);
    IS(csq_complete(by, irp_in(1, 0), CSQ_STATUS_PENDING), CSQ_NOT_HELD);
    IS(csq_complete(by, irp_in(2, 0), CSQ_STATUS_PENDING), CSQ_NOT_REMOVED);
    IS(csq_complete(by, irp_in(2, 0), CSQ_STATUS_CANCELLED), CSQ_NOT_REMOVED);
    IS(csq_complete(by, irp_in(0, 0), CSQ_STATUS_PENDING), CSQ_NOT_FINAL);
    IS(csq_complete_cancelled(by, irp_in(4, 0)), CSQ_UNKNOWN_IRP);
    IS(csq_complete_cancelled(by, irp_in(3, 0)), CSQ_NOT_HELD);
    IS(csq_complete_cancelled(by, irp_in(1, 0)), CSQ_NOT_HELD);
    /* All are as they were. */
    IS(csq_complete(&device.passes[1], irp_in(0, 0), 0), CSQ_NOT_HELD);
    IS(csq_complete(by, irp_in(0, 0), 0), CSQ_OK);
    IS(csq_complete(by, irp_in(0, 0), 0), CSQ_NOT_HELD);
    IS(csq_complete_cancelled(by, irp_in(2, 0)), CSQ_OK);
    IS(csq_cancel_routine(&device.queue, by, irp_in(1, 0)), CSQ_OK);
    end(&device);
}

static void a_cancel_is_refused_for_its_first_cause(uint32_t list) {
    struct device device = device_of(size_of(2, 1, list));
    struct csq_pass *by = &device.passes[0];
    uint32_t life = UNWRITTEN, cancelled = UNWRITTEN;
    put(&device, 0, 0, 0);
    IS(mark(&device, 0, 2, 9), 2);
    IS(mark(&device, 0, 0, 1), 2);
    IS(mark(&device, 0, 0, UINT32_MAX), 2);
    IS(csq_read_cancel(by, 0, &life, &cancelled), CSQ_OK);
    IS(life, 0);
    IS(cancelled, 0);
    IS(csq_cancel_routine(&device.queue, by, irp_in(2, 0)), CSQ_UNKNOWN_IRP);
    IS(csq_cancel_routine(&device.queue, by, irp_in(0, 0)), CSQ_NOT_OWED);
    IS(csq_cancel_routine(&device.queue, by, irp_in(1, 0)), CSQ_NOT_OWED);
    IS(mark(&device, 0, 0, 0), 1);
    end(&device);
}

static void the_code_of_a_refused_cancel_says_why(uint32_t list) {
    struct device device = device_of(size_of(2, 1, list));
    struct csq_irp unknown = { 2, 9 }, stale = { 0, 1 };
    uint32_t found = UNWRITTEN;
    IS(csq_mark_cancel(&device.passes[0], unknown, &found), CSQ_UNKNOWN_IRP);
    IS(csq_mark_cancel(&device.passes[0], stale, &found), CSQ_STALE);
    IS(found, UNWRITTEN);
    end(&device);
}

static void reads_of_an_unknown_irp_are_refused(uint32_t list) {
    struct device device = device_of(size_of(2, 1, list));
    uint32_t life = UNWRITTEN, value = UNWRITTEN;
    IS(csq_read_cancel(&device.passes[0], 2, &life, &value), CSQ_UNKNOWN_IRP);
    IS(csq_read_status(&device.passes[0], UINT32_MAX, &life, &value), CSQ_UNKNOWN_IRP);
    IS(csq_reuse(&device.queue, &device.passes[0], irp_in(2, 0), &life), CSQ_UNKNOWN_IRP);
    IS(csq_close_file(&device.queue, &device.passes[0], 1), CSQ_UNKNOWN_FILE);
    IS(csq_close_file(&device.queue, &device.passes[0], CSQ_ANY), CSQ_UNKNOWN_FILE);
    IS(life, UNWRITTEN);
    IS(value, UNWRITTEN);
    end(&device);
}

static void a_pass_that_holds_or_owes_is_not_given_back(uint32_t list) {
    struct device device = device_of(size_of(2, 1, list));
    struct csq_pass *by = &device.passes[0];
    uint32_t held = UNWRITTEN, owed = UNWRITTEN, out = UNWRITTEN;
    put(&device, 0, 0, 0);
    IS(mark(&device, 0, 0, 0), 1);
    IS(csq_give_back(&device.queue, by), CSQ_HOLDING);
    IS(csq_abandon_pass(by), CSQ_HOLDING);
    IS(csq_cancel_routine(&device.queue, by, irp_in(0, 0)), CSQ_OK);
    IS(csq_give_back(&device.queue, by), CSQ_HOLDING);
    IS(csq_abandon_pass(by), CSQ_HOLDING);
    IS(csq_count_held(by, &held, &owed), CSQ_OK);
    IS(held, 1);
    IS(owed, 0);
    IS(csq_complete_cancelled(by, irp_in(0, 0)), CSQ_OK);
    IS(csq_give_back(&device.queue, by), CSQ_OK);
    IS(csq_count_passes_out(&device.queue, &out), CSQ_OK);
    IS(out, CHECK_PASSES - 1);
    end(&device);
}

static void a_queue_with_passes_out_is_not_ended(uint32_t list) {
    struct device device = device_of(size_of(2, 1, list));
    uint32_t irp = UNWRITTEN;
    put(&device, 0, 1, 0);
    IS(csq_free(&device.queue), CSQ_PASSES_OUT);
    IS(csq_close(&device.queue), CSQ_PASSES_OUT);
    IS(csq_read_listed(&device.queue, CSQ_ANY, &irp), CSQ_NOT_CLOSED);
    IS(irp, UNWRITTEN);
    /* It goes on as before. */
    IS(put(&device, 0, 0, 0), CSQ_OK);
    IS(take(&device, 1, 0), 1);
    end(&device);
}

/* What csq_new answers for a size. What it made is freed. */
static uint32_t tried(struct csq_size size) {
    struct csq_queue queue = CSQ_EMPTY;
    uint32_t code = csq_new(&queue, &size);
    CHECK((code == CSQ_OK) == (queue.at != NULL));
    if (code == CSQ_OK) {
        IS(csq_free(&queue), CSQ_OK);
    }
    return code;
}

/* The same with each kind of list, if the size has one of them. */
static uint32_t tried_over_all(struct csq_size size) {
    uint32_t code = tried(size);
    for (uint32_t other = CSQ_VECTOR; size.list <= CSQ_AUTO && other <= CSQ_AUTO; other++) {
        struct csq_size same = size;
        same.list = other;
        IS(tried(same), code);
    }
    return code;
}

static void sizes_out_of_range_are_refused(void) {
    static const struct csq_size good[] = { { 1, 1, 1, 1, 0, 0 },
                                            { 65535, 16384, 65535, 1024, 0x3FFFFFFF, 1 },
                                            { 2, 16384, 1, 1, 0, 1 },
                                            { CSQ_MOST_IRPS, CSQ_MOST_FILES, 1, CSQ_MOST_PASSES,
                                              CSQ_LAST_LIFE, 0 } };
    static const struct csq_size bad[] = { { 0, 1, 1, 1, 0, 0 },
                                           { 65536, 1, 1, 1, 0, 0 },
                                           { 1, 0, 1, 1, 0, 0 },
                                           { 1, 16385, 1, 1, 0, 0 },
                                           { 4, 1, 0, 1, 0, 0 },
                                           { 4, 1, 5, 1, 0, 0 },
                                           { 1, 1, 1, 0, 0, 0 },
                                           { 1, 1, 1, 1025, 0, 0 },
                                           { 1, 1, 1, 1, 1u << 30, 0 },
                                           { 1, 1, 1, 1, UINT32_MAX, 0 },
                                           { 1, 1, 1, 1, 0, 3 },
                                           { 1, 1, 1, 1, 0, UINT32_MAX },
                                           { UINT32_MAX, UINT32_MAX, UINT32_MAX, UINT32_MAX,
                                             UINT32_MAX, UINT32_MAX } };
    for (size_t at = 0; at < sizeof good / sizeof *good; at++) {
        IS(tried_over_all(good[at]), CSQ_OK);
    }
    for (size_t at = 0; at < sizeof bad / sizeof *bad; at++) {
        IS(tried_over_all(bad[at]), CSQ_BAD_SIZE);
    }
}

static uint32_t tried_limits(uint32_t list, const uint32_t *file_limits, size_t count) {
    struct csq_size size = { 4, 3, 4, 1, 0, list };
    struct csq_queue queue = CSQ_EMPTY;
    uint32_t code = csq_new_with_file_limits(&queue, &size, file_limits, count);
    CHECK((code == CSQ_OK) == (queue.at != NULL));
    if (code == CSQ_OK) {
        IS(csq_free(&queue), CSQ_OK);
    }
    return code;
}

static void file_limits_out_of_range_are_refused(uint32_t list) {
    static const uint32_t good[] = { 1, 4, 2, 1 }, none[] = { 1, 0, 2 }, more[] = { 1, 4, 5 };
    IS(tried_limits(list, good, 3), CSQ_OK);
    IS(tried_limits(list, good, 2), CSQ_BAD_SIZE);
    IS(tried_limits(list, good, 4), CSQ_BAD_SIZE);
    IS(tried_limits(list, good, 0), CSQ_BAD_SIZE);
    IS(tried_limits(list, none, 3), CSQ_BAD_SIZE);
    IS(tried_limits(list, more, 3), CSQ_BAD_SIZE);
}

int main(void) {
    RUN_BOTH(an_insert_is_refused_for_its_first_cause);
    RUN_BOTH(a_refused_insert_leaves_a_cancel_where_it_is);
    RUN_BOTH(a_completion_is_refused_for_its_first_cause);
    RUN_BOTH(a_cancel_is_refused_for_its_first_cause);
    RUN_BOTH(the_code_of_a_refused_cancel_says_why);
    RUN_BOTH(reads_of_an_unknown_irp_are_refused);
    RUN_BOTH(a_pass_that_holds_or_owes_is_not_given_back);
    RUN_BOTH(a_queue_with_passes_out_is_not_ended);
    RUN(sizes_out_of_range_are_refused);
    RUN_BOTH(file_limits_out_of_range_are_refused);
    return DONE();
}
