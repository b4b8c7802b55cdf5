/* The calls that take the caller's lock themselves: what they complete, whom they notify of it, and
 * when. */
#include "check.h"

/* The caller's lock, and what the callback and the events were called with. */
struct watch {
    int taken;
    int held;
    uint32_t notified[8];
    uint32_t count;
    struct device *device;
};

static void lock_it(void *context) {
    struct watch *watch = (struct watch *)context;
    CHECK(!watch->held);
    watch->held = 1;
    watch->taken++;
}

static void unlock_it(void *context) {
    struct watch *watch = (struct watch *)context;
    CHECK(watch->held);
    watch->held = 0;
}

/* The lock is free, the IRP isn't completed yet, and nobody else can have it: another pass asks. */
static void note_it(void *context, struct csq_irp irp) {
    struct watch *watch = (struct watch *)context;
    uint32_t life = UNWRITTEN, status = UNWRITTEN, found = UNWRITTEN;
    CHECK(!watch->held);
    IS(csq_read_status(&watch->device->passes[0], irp.irp, &life, &status), CSQ_NONE);
    IS(life, irp.life);
    IS(csq_remove(&watch->device->queue, &watch->device->passes[0], irp), CSQ_NONE);
    IS(csq_mark_cancel(&watch->device->passes[0], irp, &found), CSQ_OK);
    IS(found, 0);
    watch->notified[watch->count++] = irp.irp;
}

static struct watch watch_of(struct device *device) {
    struct watch watch = { 0, 0, { 0 }, 0, device };
    return watch;
}

static void was_notified_of(const struct watch *watch, const uint32_t *irps, uint32_t count) {
    IS(watch->count, count);
    for (uint32_t at = 0; at < count; at++) {
        IS(watch->notified[at], irps[at]);
        status_of(watch->device, irps[at], CSQ_STATUS_CANCELLED);
    }
}

static void cancels_through_the_callers_lock(uint32_t list) {
    static const uint32_t notified[] = { 0 };
    struct device device = device_of(size_of(2, 1, list));
    struct watch watch = watch_of(&device);
    struct csq_lock lock = { lock_it, unlock_it, &watch };
    struct csq_callback callback = { note_it, &watch };
    struct csq_pass *by = &device.passes[1];
    uint32_t completed = UNWRITTEN;
    put(&device, 0, 0, 0);
    IS(csq_cancel(&device.queue, by, irp_in(2, 0), &lock, &callback, &completed), CSQ_UNKNOWN_IRP);
    IS(csq_cancel(&device.queue, by, irp_in(0, 7), &lock, &callback, &completed), CSQ_STALE);
    IS(completed, UNWRITTEN);
    IS(csq_cancel(&device.queue, by, irp_in(1, 0), &lock, &callback, &completed), CSQ_OK);
    IS(completed, 0);
    IS(watch.taken, 0);
    IS(csq_cancel(&device.queue, by, irp_in(0, 0), &lock, &callback, &completed), CSQ_OK);
    IS(completed, 1);
    IS(watch.taken, 1);
    was_notified_of(&watch, notified, 1);
    IS(put(&device, 0, 1, 0), CSQ_CANCELLED);
    end(&device);
}

static void a_cancel_needs_no_callback(uint32_t list) {
    struct device device = device_of(size_of(1, 1, list));
    struct watch watch = watch_of(&device);
    struct csq_lock lock = { lock_it, unlock_it, &watch };
    uint32_t completed = UNWRITTEN;
    put(&device, 0, 0, 0);
    IS(csq_cancel(&device.queue, &device.passes[1], irp_in(0, 0), &lock, NULL, &completed), CSQ_OK);
    IS(completed, 1);
    status_of(&device, 0, CSQ_STATUS_CANCELLED);
    end(&device);
}

static void cancels_what_is_owed_in_one_call(uint32_t list) {
    struct device device = device_of(size_of(2, 1, list));
    struct csq_pass *by = &device.passes[1];
    uint32_t held = UNWRITTEN, owed = UNWRITTEN;
    put(&device, 0, 0, 0);
    put(&device, 0, 1, 0);
    IS(mark(&device, 1, 0, 0), 1);
    IS(csq_cancel_owed(&device.queue, by, irp_in(2, 0)), CSQ_UNKNOWN_IRP);
    IS(csq_cancel_owed(&device.queue, by, irp_in(1, 0)), CSQ_NOT_OWED);
    IS(csq_cancel_owed(&device.queue, &device.passes[2], irp_in(0, 0)), CSQ_NOT_OWED);
    IS(csq_cancel_owed(&device.queue, by, irp_in(0, 0)), CSQ_OK);
    IS(csq_cancel_owed(&device.queue, by, irp_in(0, 0)), CSQ_NOT_OWED);
    IS(csq_count_held(by, &held, &owed), CSQ_OK);
    IS(held, 0);
    IS(owed, 0);
    status_of(&device, 0, CSQ_STATUS_CANCELLED);
    IS(take(&device, 2, CSQ_ANY), 1);
    end(&device);
}

static void cleans_up_through_the_callers_lock(uint32_t list) {
    static const uint32_t notified[] = { 1, 5 };
    struct device device = device_of(size_of(6, 2, list));
    struct watch watch = watch_of(&device);
    struct csq_lock lock = { lock_it, unlock_it, &watch };
    struct csq_callback callback = { note_it, &watch };
    struct csq_pass *by = &device.passes[1];
    uint32_t completed = UNWRITTEN;
    for (uint32_t irp = 0; irp < 6; irp++) {
        put(&device, 0, irp, irp % 2);
    }
    IS(mark(&device, 2, 3, 0), 1);
    IS(csq_cleanup(&device.queue, by, 2, &lock, &callback, &completed), CSQ_UNKNOWN_FILE);
    IS(csq_cleanup(&device.queue, by, CSQ_ANY, &lock, &callback, &completed), CSQ_UNKNOWN_FILE);
    IS(completed, UNWRITTEN);
    watch.taken = 0;
    IS(csq_cleanup(&device.queue, by, 1, &lock, &callback, &completed), CSQ_OK);
    IS(completed, 2);
    /* One to close the file object, one for each removal, and one for that which finds none. */
    IS(watch.taken, 4);
    IS(watch.held, 0);
    was_notified_of(&watch, notified, 2);
    IS(csq_cancel_routine(&device.queue, &device.passes[2], irp_in(3, 0)), CSQ_OK);
    IS(take(&device, 0, CSQ_ANY), 0);
    IS(csq_cleanup(&device.queue, by, 1, &lock, NULL, &completed), CSQ_OK);
    IS(completed, 0);
    end(&device);
}

/* A file object's number serves one handle after the other. */
static void a_drained_file_object_is_used_again(uint32_t list) {
    static const uint32_t notified[] = { 0, 2 };
    struct device device = device_of(size_of(5, 2, list));
    struct watch watch = watch_of(&device);
    struct csq_lock lock = { lock_it, unlock_it, &watch };
    struct csq_callback callback = { note_it, &watch };
    uint32_t completed = UNWRITTEN, len = UNWRITTEN;
    put(&device, 0, 0, 1);
    put(&device, 0, 1, 0);
    put(&device, 0, 2, 1);
    put(&device, 0, 3, 1);
    IS(mark(&device, 2, 3, 0), 1);
    IS(csq_drain(&device.queue, &device.passes[1], 2, &lock, &callback, &completed),
       CSQ_UNKNOWN_FILE);
    IS(completed, UNWRITTEN);
    IS(csq_drain(&device.queue, &device.passes[1], 1, &lock, &callback, &completed), CSQ_OK);
    IS(completed, 2);
    was_notified_of(&watch, notified, 2);
    /* What a canceller has is listed until it has run the routine. */
    IS(csq_file_len(&device.queue, 1, &len), CSQ_OK);
    IS(len, 1);
    IS(csq_cancel_owed(&device.queue, &device.passes[2], irp_in(3, 0)), CSQ_OK);
    IS(csq_file_len(&device.queue, 1, &len), CSQ_OK);
    IS(len, 0);
    IS(put(&device, 0, 4, 1), CSQ_OK);
    IS(take(&device, 0, 1), 4);
    IS(take(&device, 0, 0), 1);
    end(&device);
}

/* A drain ends what is listed. What was removed before is for the file object still, and so for its
 * next owner, unless a cleanup has closed it. */
static void a_drain_leaves_what_was_removed_before(uint32_t list) {
    static const uint32_t notified[] = { 1 };
    struct device device = device_of(size_of(2, 1, list));
    struct watch watch = watch_of(&device);
    struct csq_lock lock = { lock_it, unlock_it, &watch };
    struct csq_callback callback = { note_it, &watch };
    uint32_t completed = UNWRITTEN, len = UNWRITTEN;
    put(&device, 0, 0, 0);
    put(&device, 0, 1, 0);
    IS(take(&device, 2, 0), 0);
    IS(csq_drain(&device.queue, &device.passes[1], 0, &lock, &callback, &completed), CSQ_OK);
    IS(completed, 1);
    was_notified_of(&watch, notified, 1);
    IS(csq_file_len(&device.queue, 0, &len), CSQ_OK);
    IS(len, 0);
    IS(put_back(&device, 2, irp_in(0, 0), 0), CSQ_OK);
    IS(csq_file_len(&device.queue, 0, &len), CSQ_OK);
    IS(len, 1);
    IS(take(&device, 2, 0), 0);
    IS(csq_cleanup(&device.queue, &device.passes[1], 0, &lock, &callback, &completed), CSQ_OK);
    IS(completed, 0);
    IS(put_back(&device, 2, irp_in(0, 0), 0), CSQ_FILE_CLOSED);
    end(&device);
}

static void drains_every_file_object(uint32_t list) {
    static const uint32_t notified[] = { 0, 1, 2, 3, 4 };
    struct device device = device_of(size_of(5, 2, list));
    struct watch watch = watch_of(&device);
    struct csq_lock lock = { lock_it, unlock_it, &watch };
    struct csq_callback callback = { note_it, &watch };
    uint32_t completed = UNWRITTEN;
    for (uint32_t irp = 0; irp < 5; irp++) {
        put(&device, 0, irp, irp % 2);
    }
    IS(csq_drain(&device.queue, &device.passes[1], CSQ_ANY, &lock, &callback, &completed), CSQ_OK);
    IS(completed, 5);
    was_notified_of(&watch, notified, 5);
    IS(csq_drain(&device.queue, &device.passes[1], CSQ_ANY, &lock, &callback, &completed), CSQ_OK);
    IS(completed, 0);
    end(&device);
}

static void another_queue_is_refused_before_the_cancel_flag_is_set(uint32_t list) {
    struct device device = device_of(size_of(1, 1, list)), other = device_of(size_of(1, 1, list));
    struct watch watch = watch_of(&device);
    struct csq_lock lock = { lock_it, unlock_it, &watch };
    struct csq_callback callback = { note_it, &watch };
    struct csq_pass *by = &device.passes[1];
    uint32_t completed = UNWRITTEN, life = UNWRITTEN, cancelled = UNWRITTEN;
    put(&device, 0, 0, 0);
    IS(csq_cancel(&other.queue, by, irp_in(0, 0), &lock, &callback, &completed), CSQ_OTHER_QUEUE);
    IS(csq_cancel(&other.queue, by, irp_in(9, 9), &lock, &callback, &completed), CSQ_OTHER_QUEUE);
    IS(csq_drain(&other.queue, by, CSQ_ANY, &lock, &callback, &completed), CSQ_OTHER_QUEUE);
    IS(csq_cleanup(&other.queue, by, 0, &lock, &callback, &completed), CSQ_OTHER_QUEUE);
    IS(completed, UNWRITTEN);
    IS(watch.count, 0);
    IS(csq_read_cancel(by, 0, &life, &cancelled), CSQ_OK);
    IS(cancelled, 0);
    IS(take(&device, 0, 0), 0);
    end(&device);
    end(&other);
}

/* In a cancel's callback the IRP is listed still, in a drain's it isn't. */
static void count_listed(void *context, struct csq_irp irp) {
    struct watch *watch = (struct watch *)context;
    uint32_t len = UNWRITTEN;
    IS(csq_len(&watch->device->queue, &len), CSQ_OK);
    IS(irp.life, 0);
    watch->notified[watch->count++] = len;
}

static void an_irp_is_listed_until_its_cancel_routine_has_run(uint32_t list) {
    struct device device = device_of(size_of(3, 1, list));
    struct watch watch = watch_of(&device);
    struct csq_lock lock = { lock_it, unlock_it, &watch };
    struct csq_callback callback = { count_listed, &watch };
    struct csq_pass *by = &device.passes[1];
    uint32_t completed = UNWRITTEN;
    for (uint32_t irp = 0; irp < 3; irp++) {
        put(&device, 0, irp, 0);
    }
    IS(csq_cancel(&device.queue, by, irp_in(0, 0), &lock, &callback, &completed), CSQ_OK);
    IS(csq_drain(&device.queue, by, 0, &lock, &callback, &completed), CSQ_OK);
    IS(watch.count, 3);
    IS(watch.notified[0], 3);
    IS(watch.notified[1], 1);
    IS(watch.notified[2], 0);
    end(&device);
}

/* Notes an IRP that was completed, once the lock is free, and begins its next life by the pass of
 * the call. */
static void reuse_it(void *context, struct csq_irp irp) {
    struct watch *watch = (struct watch *)context;
    struct csq_pass *by = &watch->device->passes[1];
    uint32_t life = UNWRITTEN, held = UNWRITTEN, owed = UNWRITTEN;
    status_of(watch->device, irp.irp, CSQ_STATUS_CANCELLED);
    IS(csq_count_held(by, &held, &owed), CSQ_OK);
    IS(held + owed, 0);
    CHECK(!watch->held);
    lock_it(watch);
    IS(csq_reuse(&watch->device->queue, by, irp, &life), CSQ_OK);
    unlock_it(watch);
    IS(life, irp.life + 1);
    watch->notified[watch->count++] = 10 + irp.irp;
}

static void the_events_were(const struct watch *watch, const uint32_t *want, uint32_t count) {
    IS(watch->count, count);
    for (uint32_t at = 0; at < count; at++) {
        IS(watch->notified[at], want[at]);
    }
}

static void whoever_is_notified_after_a_completion_may_reuse(uint32_t list) {
    static const uint32_t cancelled[] = { 0, 10 }, drained[] = { 1, 11, 3, 13 },
                          cleaned[] = { 2, 12 };
    struct device device = device_of(size_of(4, 2, list));
    struct watch watch = watch_of(&device);
    struct csq_lock lock = { lock_it, unlock_it, &watch };
    struct csq_events events = { note_it, reuse_it, &watch };
    struct csq_pass *by = &device.passes[1];
    uint32_t completed = UNWRITTEN;
    for (uint32_t irp = 0; irp < 4; irp++) {
        put(&device, 0, irp, irp % 2);
    }
    IS(csq_cancel_with(&device.queue, by, irp_in(0, 1), &lock, &events, &completed), CSQ_STALE);
    IS(csq_drain_with(&device.queue, by, 2, &lock, &events, &completed), CSQ_UNKNOWN_FILE);
    IS(csq_cleanup_with(&device.queue, by, 2, &lock, &events, &completed), CSQ_UNKNOWN_FILE);
    IS(completed, UNWRITTEN);
    the_events_were(&watch, NULL, 0);
    IS(csq_cancel_with(&device.queue, by, irp_in(0, 0), &lock, &events, &completed), CSQ_OK);
    IS(completed, 1);
    the_events_were(&watch, cancelled, 2);
    watch.count = 0;
    IS(csq_drain_with(&device.queue, by, 1, &lock, &events, &completed), CSQ_OK);
    IS(completed, 2);
    the_events_were(&watch, drained, 4);
    watch.count = 0;
    IS(csq_cleanup_with(&device.queue, by, 0, &lock, &events, &completed), CSQ_OK);
    IS(completed, 1);
    the_events_were(&watch, cleaned, 2);
    end(&device);
}

static void either_event_may_be_none(uint32_t list) {
    static const uint32_t before[] = { 0 }, after[] = { 11 };
    struct device device = device_of(size_of(3, 1, list));
    struct watch watch = watch_of(&device);
    struct csq_lock lock = { lock_it, unlock_it, &watch };
    struct csq_events events = { note_it, NULL, &watch };
    struct csq_pass *by = &device.passes[1];
    uint32_t completed = UNWRITTEN;
    for (uint32_t irp = 0; irp < 3; irp++) {
        put(&device, 0, irp, 0);
    }
    IS(csq_cancel_with(&device.queue, by, irp_in(0, 0), &lock, &events, &completed), CSQ_OK);
    the_events_were(&watch, before, 1);
    watch.count = 0;
    events.before_completion = NULL;
    events.after_completion = reuse_it;
    IS(csq_cancel_with(&device.queue, by, irp_in(1, 0), &lock, &events, &completed), CSQ_OK);
    the_events_were(&watch, after, 1);
    IS(csq_drain_with(&device.queue, by, 0, &lock, NULL, &completed), CSQ_OK);
    IS(completed, 1);
    end(&device);
}

/* A cancel that completes nothing has no event. */
static void what_another_completes_is_no_event(uint32_t list) {
    struct device device = device_of(size_of(1, 1, list));
    struct watch watch = watch_of(&device);
    struct csq_lock lock = { lock_it, unlock_it, &watch };
    struct csq_events events = { note_it, reuse_it, &watch };
    uint32_t completed = UNWRITTEN;
    put(&device, 0, 0, 0);
    IS(take(&device, 2, CSQ_ANY), 0);
    IS(csq_cancel_with(&device.queue, &device.passes[1], irp_in(0, 0), &lock, &events, &completed),
       CSQ_OK);
    IS(completed, 0);
    IS(watch.count, 0);
    end(&device);
}

int main(void) {
    RUN_BOTH(cancels_through_the_callers_lock);
    RUN_BOTH(a_cancel_needs_no_callback);
    RUN_BOTH(cancels_what_is_owed_in_one_call);
    RUN_BOTH(cleans_up_through_the_callers_lock);
    RUN_BOTH(a_drained_file_object_is_used_again);
    RUN_BOTH(a_drain_leaves_what_was_removed_before);
    RUN_BOTH(drains_every_file_object);
    RUN_BOTH(another_queue_is_refused_before_the_cancel_flag_is_set);
    RUN_BOTH(an_irp_is_listed_until_its_cancel_routine_has_run);
    RUN_BOTH(whoever_is_notified_after_a_completion_may_reuse);
    RUN_BOTH(either_event_may_be_none);
    RUN_BOTH(what_another_completes_is_no_event);
    return DONE();
}
