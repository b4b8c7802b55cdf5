/* What is said of what a driver does, beside a queue. */
#include "check.h"

/* A peek of a driver, and what is said of its answer. */
struct judged {
    uint32_t after, file, answer, verdict, skipped;
};

static void judge_each(const struct device *device, const struct judged *rows, size_t count) {
    for (size_t at = 0; at < count; at++) {
        uint32_t verdict = UNWRITTEN, skipped = UNWRITTEN;
        IS(csq_judge_peek(&device->queue, rows[at].after, rows[at].file, rows[at].answer, &verdict,
                          &skipped),
           CSQ_OK);
        IS(verdict, rows[at].verdict);
        IS(skipped, rows[at].skipped);
    }
}

static void the_peeks_of_a_driver_are_judged(uint32_t list) {
    /* The list is 0 (file object 0), 1 (1), 2 (0), 3 (1); 4 isn't listed. */
    static const struct judged rows[] = {
        { CSQ_ANY, CSQ_ANY, 0, CSQ_PEEK_AGREES, UNWRITTEN },
        { 3, CSQ_ANY, CSQ_ANY, CSQ_PEEK_AGREES, UNWRITTEN },
        { 0, 0, 2, CSQ_PEEK_AGREES, UNWRITTEN },
        { 2, 0, CSQ_ANY, CSQ_PEEK_AGREES, UNWRITTEN },
        { CSQ_ANY, CSQ_ANY, CSQ_ANY, CSQ_PEEK_SKIPS, 0 },
        { CSQ_ANY, CSQ_ANY, 3, CSQ_PEEK_SKIPS, 0 },
        { CSQ_ANY, 1, 3, CSQ_PEEK_SKIPS, 1 },
        { 0, CSQ_ANY, 2, CSQ_PEEK_SKIPS, 1 },
        { 2, CSQ_ANY, 1, CSQ_PEEK_BACKWARDS, UNWRITTEN },
        { 2, CSQ_ANY, 2, CSQ_PEEK_BACKWARDS, UNWRITTEN },
        { 3, 1, 1, CSQ_PEEK_BACKWARDS, UNWRITTEN },
        { 0, 0, 3, CSQ_PEEK_NO_MATCH, UNWRITTEN },
        { 2, 7, 2, CSQ_PEEK_NO_MATCH, UNWRITTEN },
        { CSQ_ANY, 1, 0, CSQ_PEEK_NO_MATCH, UNWRITTEN },
        { CSQ_ANY, CSQ_ANY, 4, CSQ_PEEK_NOT_LISTED, UNWRITTEN },
        { 1, 1, 1000, CSQ_PEEK_NOT_LISTED, UNWRITTEN },
    };
    struct device device = device_of(size_of(5, 2, list));
    uint32_t verdict = UNWRITTEN, skipped = UNWRITTEN;
    for (uint32_t irp = 0; irp < 4; irp++) {
        put(&device, 0, irp, irp % 2);
    }
    judge_each(&device, rows, sizeof rows / sizeof *rows);
    IS(csq_judge_peek(&device.queue, 4, CSQ_ANY, 0, &verdict, &skipped), CSQ_NOT_LISTED);
    IS(verdict, UNWRITTEN);
    IS(skipped, UNWRITTEN);
    end(&device);
}

/* What a cleanup left of a file object, but for these two. */
struct cleaned {
    uint32_t file, excused[2], left;
};

static void what_a_cleanup_left_is_reported(uint32_t list) {
    /* The list is 0 (file object 0), 1 (1), 2 (0), 3 (1). */
    static const struct cleaned rows[] = {
        { 0, { 9, 9 }, 0 },       { 1, { 9, 9 }, 1 }, { 0, { 0, 9 }, 2 }, { 0, { 2, 9 }, 0 },
        { 0, { 2, 0 }, CSQ_ANY }, { 1, { 0, 2 }, 1 }, { 1, { 1, 0 }, 3 }, { 1, { 1, 3 }, CSQ_ANY },
    };
    struct device device = device_of(size_of(4, 2, list));
    uint32_t left = UNWRITTEN;
    for (uint32_t irp = 0; irp < 4; irp++) {
        put(&device, 0, irp, irp % 2);
    }
    for (size_t at = 0; at < sizeof rows / sizeof *rows; at++) {
        IS(csq_judge_cleanup(&device.queue, rows[at].file, rows[at].excused, 2, &left), CSQ_OK);
        IS(left, rows[at].left);
    }
    IS(csq_judge_cleanup(&device.queue, 1, rows[7].excused, 1, &left), CSQ_OK);
    IS(left, 3);
    IS(csq_judge_cleanup(&device.queue, 1, rows[7].excused, 0, &left), CSQ_OK);
    IS(left, 1);
    /* None is left of a file object that there isn't, but a caller that asks for it asks for
     * another one. */
    IS(csq_judge_cleanup(&device.queue, 2, rows[7].excused, 0, &left), CSQ_UNKNOWN_FILE);
    IS(csq_judge_cleanup(&device.queue, CSQ_ANY, rows[7].excused, 0, &left), CSQ_UNKNOWN_FILE);
    IS(left, 1);
    end(&device);
}

/* The verdicts, by the first pass. */
static uint32_t removal(struct device *device, struct csq_irp irp) {
    uint32_t verdict = UNWRITTEN;
    IS(csq_judge_remove(&device->queue, &device->passes[0], irp, &verdict), CSQ_OK);
    return verdict;
}
static uint32_t completion(struct device *device, struct csq_irp irp, uint32_t status) {
    uint32_t verdict = UNWRITTEN;
    IS(csq_judge_complete(&device->queue, &device->passes[0], irp, status, &verdict), CSQ_OK);
    return verdict;
}
static uint32_t insert(struct device *device, struct csq_irp irp) {
    uint32_t verdict = UNWRITTEN;
    IS(csq_judge_insert(&device->queue, &device->passes[0], irp, &verdict), CSQ_OK);
    return verdict;
}

static void what_was_removed_is_completed_once(uint32_t list) {
    struct device device = device_of(size_of(2, 1, list));
    put(&device, 0, 0, 0);
    IS(completion(&device, irp_in(0, 0), CSQ_STATUS_SUCCESS), CSQ_USE_LISTED);
    IS(completion(&device, irp_in(0, 0), CSQ_STATUS_CANCELLED), CSQ_USE_LISTED);
    IS(completion(&device, irp_in(1, 0), CSQ_STATUS_SUCCESS), CSQ_USE_NOT_HELD);
    IS(completion(&device, irp_in(2, 0), CSQ_STATUS_SUCCESS), CSQ_USE_NOT_HELD);
    IS(removal(&device, irp_in(0, 1)), CSQ_REMOVE_CLAIMED); /* by its number */
    IS(removal(&device, irp_in(0, 0)), CSQ_REMOVE_AGREES);
    IS(removal(&device, irp_in(0, 0)), CSQ_REMOVE_NOT_LISTED);
    IS(completion(&device, irp_in(0, 0), CSQ_STATUS_PENDING), CSQ_USE_NOT_FINAL);
    IS(completion(&device, irp_in(0, 1), CSQ_STATUS_SUCCESS), CSQ_USE_NOT_HELD);
    IS(completion(&device, irp_in(0, 0), 0xC0000001), CSQ_USE_AGREES);
    status_of(&device, 0, 0xC0000001);
    IS(completion(&device, irp_in(0, 0), CSQ_STATUS_CANCELLED), CSQ_USE_NOT_HELD);
    end(&device);
}

static void what_was_got_cancelled_is_completed_so(uint32_t list) {
    struct device device = device_of(size_of(2, 1, list));
    put(&device, 1, 0, 0);
    IS(mark(&device, 0, 0, 0), 1);
    IS(removal(&device, irp_in(0, 0)), CSQ_REMOVE_CLAIMED);
    IS(completion(&device, irp_in(0, 0), CSQ_STATUS_CANCELLED), CSQ_USE_LISTED);
    IS(csq_cancel_routine(&device.queue, &device.passes[0], irp_in(0, 0)), CSQ_OK);
    IS(removal(&device, irp_in(0, 0)), CSQ_REMOVE_NOT_LISTED);
    IS(completion(&device, irp_in(0, 0), CSQ_STATUS_SUCCESS), CSQ_USE_GOT_CANCELLED);
    IS(completion(&device, irp_in(0, 0), CSQ_STATUS_PENDING), CSQ_USE_GOT_CANCELLED);
    IS(insert(&device, irp_in(0, 0)), CSQ_USE_GOT_CANCELLED);
    IS(completion(&device, irp_in(0, 0), CSQ_STATUS_CANCELLED), CSQ_USE_AGREES);
    status_of(&device, 0, CSQ_STATUS_CANCELLED);
    IS(insert(&device, irp_in(0, 0)), CSQ_USE_NOT_HELD);
    end(&device);
}

static void what_was_removed_is_inserted_again(uint32_t list) {
    struct device device = device_of(size_of(2, 1, list));
    uint32_t life = UNWRITTEN;
    put(&device, 0, 0, 0);
    IS(insert(&device, irp_in(0, 0)), CSQ_USE_LISTED);
    IS(removal(&device, irp_in(0, 0)), CSQ_REMOVE_AGREES);
    IS(put(&device, 0, 0, 0), CSQ_NOT_HOME);
    IS(insert(&device, irp_in(0, 1)), CSQ_USE_NOT_HELD);
    IS(insert(&device, irp_in(0, 0)), CSQ_USE_AGREES);
    status_of(&device, 0, CSQ_STATUS_SUCCESS);
    IS(removal(&device, irp_in(2, 1)), CSQ_REMOVE_NOT_LISTED);
    IS(csq_reuse(&device.queue, &device.passes[0], irp_in(0, 0), &life), CSQ_OK);
    IS(put(&device, 0, 0, 0), CSQ_OK);
    IS(insert(&device, irp_in(0, 0)), CSQ_USE_LISTED); /* by its number */
    IS(removal(&device, irp_in(0, life)), CSQ_REMOVE_AGREES);
    end(&device);
}

int main(void) {
    RUN_BOTH(the_peeks_of_a_driver_are_judged);
    RUN_BOTH(what_a_cleanup_left_is_reported);
    RUN_BOTH(what_was_removed_is_completed_once);
    RUN_BOTH(what_was_got_cancelled_is_completed_so);
    RUN_BOTH(what_was_removed_is_inserted_again);
    return DONE();
}
