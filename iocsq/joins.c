/* The end of several threads of a test. */
#include "internal.h"

struct joined {
    IOCSQ_THREAD *threads;
    ULONG count;
};

static bool are_done(void *of) {
    const struct joined *joined = of;
    for (ULONG at = 0; at < joined->count; at++) {
        if (!iocsq_has_ended(joined->threads[at])) {
            return false;
        }
    }
    return true;
}

VOID IocsqJoinAll(IOCSQ_THREAD *Threads, ULONG Count) {
    struct joined joined = { Threads, Count };
    if (iocsq_in_turns()) {
        iocsq_wait_in_turns(are_done, &joined, IOCSQ_FOR_EVER, false, "threads' ends");
    }
    for (ULONG at = 0; at < Count; at++) {
        IocsqJoin(Threads[at]);
    }
}
