/* The program's variables, so that a run can begin again with the values that they had: those of
 * iocsq, of the test and of the driver, but for what is allocated, which a run frees itself. */
#include "internal.h"

#include <stdlib.h>

#if defined(__SANITIZE_ADDRESS__)
#define SANITIZED 1
#elif defined(__has_feature)
#if __has_feature(address_sanitizer) || __has_feature(undefined_behavior_sanitizer)
#define SANITIZED 1
#endif
#endif

struct iocsq_variables {
    struct iocsq_own own;
    struct iocsq_part parts[IOCSQ_PARTS];
    char bytes[];
};

const struct iocsq_variables *iocsq_save_variables(void) {
#ifdef SANITIZED
    return NULL;
#else
    struct iocsq_part parts[IOCSQ_PARTS];
    iocsq_find_variables(parts);
    struct iocsq_variables *saved = malloc(sizeof *saved + parts[0].size + parts[1].size);
    if (!saved) {
        iocsq_fail("no memory for the program's variables");
    }
    saved->own = iocsq_own;
    memcpy(saved->parts, parts, sizeof parts);
    memcpy(saved->bytes, parts[0].at, parts[0].size);
    memcpy(saved->bytes + parts[0].size, parts[1].at, parts[1].size);
    return saved;
#endif
}

void iocsq_restore_variables(const struct iocsq_variables *saved) {
    iocsq_own = saved->own;
    memcpy(saved->parts[0].at, saved->bytes, saved->parts[0].size);
    memcpy(saved->parts[1].at, saved->bytes + saved->parts[0].size, saved->parts[1].size);
}

void iocsq_forget_run(const struct iocsq_variables *before) {
    iocsq_use_arena(false);
    iocsq_forget_irps();
    iocsq_restore_variables(before);
    if (iocsq_in_turns()) {
        iocsq_leave_turns();
    }
}
