/* The clock of turns: each turn takes a little time, and a wait only as much as it says. In the
 * bounded mode with traces (traces.h) time goes on by calls that ask for one alone: otherwise each
 * switch would matter to a thread that looks at the clock. */
#include "internal.h"

enum { TURN = 10000 };

static uint64_t now; /* nanoseconds */

uint64_t iocsq_now_in_turns(void) {
    return now;
}

/* By no thread, as iocsq_touch_clock has it. */
IOCSQ_COMMUTES void iocsq_set_clock(uint64_t nanoseconds) {
    now = nanoseconds;
    iocsq_touch_clock();
}

void iocsq_pass_time_in_turns(uint64_t nanoseconds) {
    iocsq_set_clock(now + nanoseconds);
}

static bool stands_still(void) {
    return iocsq_is_bounded() && iocsq_keeps_traces();
}

void iocsq_pass_time_of_turn(void) {
    if (!stands_still()) {
        now += TURN;
    }
}

void iocsq_pass_time_of_call(void) {
    if (stands_still()) {
        iocsq_pass_time_in_turns(TURN);
    }
}
