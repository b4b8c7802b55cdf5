/* File objects: how they are opened, referred to and closed. */
#include "queues.h"

enum { MILLISECOND = 1000000, SOON = 200 };

static FILE_OBJECT files[IOCSQ_FILES]; /* with the next four, under the state's lock */
static bool is_open[IOCSQ_FILES];
static bool is_closing[IOCSQ_FILES]; /* its IRP_MJ_CLEANUP was sent, or its IRP_MJ_CREATE has yet to
                                      * be completed */
static bool is_cleaned[IOCSQ_FILES]; /* its IRP_MJ_CLEANUP was completed */
static uint32_t references[IOCSQ_FILES]; /* of IocsqReferenceAny */
static LONG of_driver[IOCSQ_FILES];      /* references of the driver */

uint32_t iocsq_file_number(const void *file) {
    uintptr_t offset = (uintptr_t)file - (uintptr_t)files;
    bool is_file = offset < sizeof files && offset % sizeof *files == 0;
    return is_file ? (uint32_t)(offset / sizeof *files) : (uint32_t)IOCSQ_FILES;
}

/* The number of one that a test names. */
static uint32_t number_of(const void *file) {
    uint32_t number = iocsq_file_number(file);
    if (number >= IOCSQ_FILES) {
        iocsq_fail("%p is no file object", file);
    }
    return number;
}

uint32_t iocsq_open_files(void) {
    uint32_t count = 0;
    iocsq_lock_state_for(files, IOCSQ_LOOKS);
    for (uint32_t at = 0; at < IOCSQ_FILES; at++) {
        count += is_open[at];
    }
    iocsq_unlock_state();
    return count;
}

bool iocsq_is_file_cleaned(const void *file) {
    return is_cleaned[number_of(file)];
}

static bool is_noted(const bool *of_files, const void *file) {
    uint32_t number = iocsq_file_number(file);
    iocsq_lock_state_for(file, IOCSQ_LOOKS);
    bool noted = number < IOCSQ_FILES && of_files[number];
    iocsq_unlock_state();
    return noted;
}

bool iocsq_is_closing(const void *file) {
    return is_noted(is_closing, file);
}

bool iocsq_is_cleaned(const void *file) {
    return is_noted(is_cleaned, file);
}

bool iocsq_reference_file(PVOID object, int change) {
    uint32_t number = iocsq_file_number(object);
    if (number >= IOCSQ_FILES) {
        return false;
    }
    iocsq_touch(&of_driver[number], IOCSQ_LOOKS | IOCSQ_RELEASES);
    if (__atomic_add_fetch(&of_driver[number], change, __ATOMIC_RELAXED) < 0) {
        iocsq_disagree(NULL, "ObDereferenceObject of file %u, more often than it was referenced",
                       number);
    }
    iocsq_state_changed();
    return true;
}

/* Two that add commute. */
static void add_reference(const void *file, int change) {
    uint32_t *count = &references[number_of(file)];
    iocsq_touch(count, IOCSQ_LOOKS);
    __atomic_add_fetch(count, (uint32_t)change, __ATOMIC_RELAXED);
}

/* An IRP that isn't completed keeps its file object from being closed (wait_for_close). */
void iocsq_take_over_reference(void) {
    iocsq_own.took_over = iocsq_own.handed_over != NULL;
    if (iocsq_own.took_over) {
        add_reference(iocsq_own.handed_over, -1);
        iocsq_own.handed_over = NULL;
        iocsq_state_changed();
    }
}

/* ---- File objects ---- */
static PFILE_OBJECT new_file(void) {
    PFILE_OBJECT file = NULL;
    iocsq_lock_state_for(files, IOCSQ_CHANGES);
    for (uint32_t at = 0; at < IOCSQ_FILES && !file; at++) {
        if (!is_open[at]) {
            is_open[at] = is_closing[at] = true;
            is_cleaned[at] = false;
            file = &files[at];
            memset(file, 0, sizeof *file);
            iocsq_begin_memory(file, sizeof *file);
        }
    }
    iocsq_unlock_state();
    return file;
}

static void free_file(PFILE_OBJECT file) {
    iocsq_lock_state_for(files, IOCSQ_CHANGES);
    is_open[number_of(file)] = false;
    iocsq_unlock_state();
}

static void set_closing(PFILE_OBJECT file, bool closing) {
    iocsq_lock_state_for(file, IOCSQ_CHANGES | IOCSQ_RELEASES);
    is_closing[number_of(file)] = closing;
    iocsq_unlock_state();
}

PFILE_OBJECT IocsqOpen(PDRIVER_OBJECT Driver) {
    PFILE_OBJECT file = new_file();
    if (!file) {
        return NULL;
    }
    file->DeviceObject = Driver->DeviceObject;
    if (!NT_SUCCESS(iocsq_send_and_wait(file, IRP_MJ_CREATE))) {
        free_file(file);
        return NULL;
    }
    set_closing(file, false);
    return file;
}

PFILE_OBJECT IocsqReferenceAny(VOID) {
    uint32_t from = iocsq_draw(iocsq_is_bounded() ? iocsq_open_files() + 1 : (uint32_t)IOCSQ_FILES);
    PFILE_OBJECT file = NULL;
    iocsq_lock_state_for(files, IOCSQ_CHANGES);
    for (uint32_t at = 0; at < IOCSQ_FILES && !file; at++) {
        uint32_t number = (from + at) % IOCSQ_FILES;
        if (is_open[number] && !is_closing[number]) {
            file = &files[number];
            iocsq_touch(file, IOCSQ_LOOKS | IOCSQ_ACQUIRES);
            add_reference(file, 1);
        }
    }
    iocsq_unlock_state();
    iocsq_long_point(2); /* its cleanup may run before it is used */
    return file;
}

BOOLEAN IocsqReference(PFILE_OBJECT File) {
    uint32_t number = number_of(File);
    iocsq_lock_state_for(File, IOCSQ_LOOKS | IOCSQ_ACQUIRES);
    bool may = is_open[number] && !is_closing[number];
    if (may) {
        add_reference(File, 1);
    }
    iocsq_unlock_state();
    iocsq_point(); /* as in IocsqReferenceAny */
    return may;
}

VOID IocsqRelease(PFILE_OBJECT File) {
    iocsq_lock_state_for(&references[number_of(File)], IOCSQ_LOOKS | IOCSQ_RELEASES);
    add_reference(File, -1);
    iocsq_state_changed();
    iocsq_unlock_state();
}

VOID IocsqHandOver(PFILE_OBJECT File) {
    iocsq_own.handed_over = File;
}

static bool is_released(void *file) {
    return references[number_of(file)] == 0;
}

/* An IRP, as one of this file object: it may be another's by the time that it is looked at. */
struct irp_of_file {
    struct iocsq_irp *irp;
    PFILE_OBJECT file;
};

static bool is_of_file(const struct irp_of_file *of) {
    return of->irp->used && !of->irp->own && of->irp->file == of->file;
}

/* Whether it waits with a cancel routine of the driver's own, though its file object was cleaned
 * up: not one that came after the cleanup began, or that is cancelled. */
static bool is_left_by_hand(const struct irp_of_file *of) {
    const struct iocsq_irp *i = of->irp;
    iocsq_lock_state_for(i, IOCSQ_LOOKS);
    bool left = is_of_file(of) && i->place == IOCSQ_HOME && i->irp.CancelRoutine && !i->late &&
                !i->irp.Cancel;
    iocsq_unlock_state();
    return left;
}

static void check_cleaned_by_hand(PFILE_OBJECT file) {
    for (uint32_t at = 0; at < iocsq_irp_count(); at++) {
        struct irp_of_file of = { iocsq_irp_number(at), file };
        if (is_left_by_hand(&of)) {
            iocsq_disagree(of.irp,
                           "IRP_MJ_CLEANUP of file %u left irp %u, which waits with a cancel "
                           "routine of the driver (if it ends soon by itself, the policy says "
                           "KeepsAtCleanup)",
                           number_of(file), at);
        }
    }
}

static void check_cleaned(PFILE_OBJECT file) {
    uint32_t number = number_of(file);
    iocsq_lock_state_for(file, IOCSQ_CHANGES);
    is_cleaned[number] = true;
    iocsq_unlock_state();
    const struct iocsq_irp *left = iocsq_left_in_queues(number);
    if (left) {
        iocsq_disagree(left, "IRP_MJ_CLEANUP of file %u left irp %u in the queue", number,
                       left->index);
    }
    if (iocsq_is_by_hand() && !iocsq_first_policy().KeepsAtCleanup) {
        check_cleaned_by_hand(file);
    }
}

static bool is_completed(void *irp_of_file) {
    const struct irp_of_file *of = irp_of_file;
    return !is_of_file(of) || iocsq_is_done(of->irp);
}

static bool is_dereferenced(void *file) {
    return of_driver[number_of(file)] == 0;
}

static bool await_completion(struct irp_of_file *of, ULONG milliseconds) {
    iocsq_lock_state_for(NULL, 0);
    bool completed =
        iocsq_await(is_completed, of, milliseconds * (uint64_t)MILLISECOND, "a request");
    iocsq_touch(of->irp, is_of_file(of) ? (unsigned)IOCSQ_ACQUIRES : (unsigned)IOCSQ_LOOKS);
    iocsq_unlock_state();
    return completed;
}

/* Whether it is completed in the end. A request that comes after the cleanup, to a driver without
 * an IO_CSQ, may wait until it is cancelled, as the I/O manager does once its sender's thread
 * ends. */
static bool await_last_completion(struct irp_of_file *of) {
    bool by_hand = iocsq_is_by_hand();
    if (await_completion(of, by_hand && !iocsq_in_turns() ? (ULONG)SOON : iocsq_patience())) {
        return true;
    }
    if (by_hand && of->irp->late && !iocsq_first_policy().NoneLate) {
        iocsq_cover(IOCSQ_CLEANUP_OUTLIVED);
        iocsq_cancel(of->irp);
    }
    return by_hand && await_completion(of, iocsq_patience());
}

void iocsq_release_file(const void *file) {
    uint32_t number = iocsq_file_number(file);
    if (number < IOCSQ_FILES) {
        iocsq_touch(&references[number], IOCSQ_LOOKS | IOCSQ_RELEASES);
    }
}

/* IRP_MJ_CLOSE comes once the file object is referenced no more, and its IRPs are completed. */
static void wait_for_close(PFILE_OBJECT file) {
    iocsq_lock_state_for(NULL, 0);
    iocsq_await(is_released, file, IOCSQ_FOR_EVER, "a file object's release");
    iocsq_touch(&references[number_of(file)], IOCSQ_CHANGES | IOCSQ_ACQUIRES);
    iocsq_unlock_state();
    for (uint32_t at = 0; at < iocsq_irp_count(); at++) {
        struct irp_of_file of = { iocsq_irp_number(at), file };
        bool completed = await_last_completion(&of);
        if (!completed && of.irp->late && of.irp->place != IOCSQ_REMOVED) {
            iocsq_disagree(of.irp,
                           "irp %u %s after IRP_MJ_CLEANUP of its file %u began, and was never "
                           "completed",
                           at, iocsq_is_by_hand() ? "was given a cancel routine"
                                                  : "went into the queue",
                           iocsq_file_number(file));
        }
        if (!completed) {
            iocsq_disagree(of.irp, "irp %u of file %u %s, and was never completed", at,
                           iocsq_file_number(file), iocsq_place_name(of.irp));
        }
    }
    iocsq_touch(&references[number_of(file)], IOCSQ_LOOKS | IOCSQ_ACQUIRES);
}

static void wait_for_dereference(PFILE_OBJECT file) {
    iocsq_lock_state_for(NULL, 0);
    bool dropped = iocsq_await(is_dereferenced, file, iocsq_patience() * (uint64_t)MILLISECOND,
                               "a file object's references");
    iocsq_touch(&of_driver[number_of(file)], IOCSQ_CHANGES | IOCSQ_ACQUIRES);
    iocsq_unlock_state();
    if (!dropped) {
        iocsq_disagree(
            NULL,
            "IRP_MJ_CLOSE of file %u never comes, since the driver doesn't drop a reference to it",
            iocsq_file_number(file));
    }
}

VOID IocsqClose(PFILE_OBJECT File) {
    set_closing(File, true);
    iocsq_send_and_wait(File, IRP_MJ_CLEANUP);
    iocsq_cover(IOCSQ_CLEANUP);
    check_cleaned(File);
    wait_for_close(File);
    wait_for_dereference(File);
    iocsq_send_and_wait(File, IRP_MJ_CLOSE);
    free_file(File);
}
