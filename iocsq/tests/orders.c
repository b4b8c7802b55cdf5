/* The rules of tests/touches.c, on runs made by hand: whether it reports each. */
#include "touches.c" /* its calls to iocsq are those below */

#include <sys/wait.h>
#include <unistd.h>

_Thread_local struct iocsq_own iocsq_own;
static uint32_t running = 1;
static uint32_t word[6]; /* its own cell and two more */
static char first, second; /* objects */

uint32_t iocsq_thread(void) {
    return running;
}
bool iocsq_is_own_stack(const void *at) {
    (void)at;
    return false;
}
void iocsq_show_last_calls(void) {
}
void __real_iocsq_touch(const void *object, unsigned how) {
    (void)object, (void)how;
}
VOID __real_IocsqShared(const VOID *object, BOOLEAN changes) {
    (void)object, (void)changes;
}
void __real_iocsq_end_part(const void *done, uint32_t before) {
    (void)done, (void)before;
}
void __real_iocsq_look_at_clock(void) {
}
uint64_t __real_iocsq_now(void) {
    return 0;
}
void __real_iocsq_touch_clock(void) {
}
uint32_t __real_iocsq_part_of_thread(uint32_t thread) {
    return thread;
}
void __real_iocsq_begin_trace(void) {
}
void __real_iocsq_report_race(void) {
}
uint32_t __real_iocsq_choose(const struct iocsq_options *of) {
    (void)of;
    return 0;
}
void __real_iocsq_wait_in_turns(bool (*may_go)(void *), void *of, uint64_t nanoseconds,
                                bool is_time, const char *what) {
    (void)may_go, (void)of, (void)nanoseconds, (void)is_time, (void)what;
}
void __real_iocsq_begin_transition(void) {
}

/* The transition of one thread ends, and another goes on, or it itself. */
static void go_on_with(uint32_t thread) {
    __wrap_iocsq_report_race();
    __wrap_iocsq_choose(NULL);
    if (thread != running) {
        running = thread;
        __wrap_iocsq_begin_transition();
    }
}

static void access_word(char letter) {
    switch (letter) {
    case 'r': own_read4(word); break;
    case 'w': own_write4(word); break;
    case 'b': own_write1(word); break; /* its first byte */
    case 'e': own_write1((char *)word + 3); break;
    case 'm': own_write_range(word, sizeof word); break;
    case 'z': own_write4(word + 5); break;
    case 'l': own_atomic32_load(word, __ATOMIC_SEQ_CST); break;
    case 'a': own_atomic32_fetch_add(word, 1, __ATOMIC_SEQ_CST); break;
    case 'x': own_atomic32_exchange(word, 1, __ATOMIC_SEQ_CST); break;
    case 'o': own_write4(&iocsq_own.thread); break;
    case 'p': /* as it looks who may go on */
        __wrap_iocsq_report_race();
        own_read4(word);
        break;
    default: break;
    }
}

static void touch(char letter) {
    switch (letter) {
    case 'L': __wrap_iocsq_touch(&first, IOCSQ_LOOKS); break;
    case 'C': __wrap_iocsq_touch(&first, IOCSQ_CHANGES); break;
    case 'D': __wrap_iocsq_touch(&second, IOCSQ_CHANGES); break;
    case 'S': __wrap_IocsqShared(&first, TRUE); break;
    case 'E': __wrap_iocsq_end_part(&first, 0); break;
    case 'B': __wrap_iocsq_part_of_thread(2); break; /* thread 2 begins */
    case 'N': __wrap_iocsq_now(); break;
    case 'K': __wrap_iocsq_look_at_clock(); break;
    case 'T': __wrap_iocsq_touch_clock(); break;
    case 'W': __wrap_iocsq_wait_in_turns(NULL, NULL, 0, false, NULL); break;
    case '|': __wrap_iocsq_begin_trace(); break; /* the next run */
    default: break;
    }
}

/* A number is the thread that goes on. */
static void make_run(const char *run) {
    __wrap_iocsq_begin_trace();
    for (const char *at = run; *at; at++) {
        if (*at >= '1' && *at <= '9') {
            go_on_with((uint32_t)(*at - '0'));
        }
        access_word(*at);
        touch(*at);
    }
    go_on_with(1);
}

static const char *const quiet[] = {
    "1r2r", "1l2r", "1a2a", "1o2o", "1w1r", "1b2e", "1w|2w", "1w2p",     /* they don't conflict */
    "1wC2Cw", "1Cw2wC", "1wC2Lr", "1rL2Cw", "1wS2Sw", "1wE2Cw",          /* one touch */
    "1wC2L3Lr", "1rL2L3Cw", "1wC2CD3Dw", "1w1C2C2w", "1wB2w", "1CwW2Cw", /* over several */
    "1NK1T", "1T1NK", "1NKT2T",
};
static const char *const reported[] = {
    "1w2w", "1w2r", "1r2w", "1x2r", "1a2r", "1l2a", "1a2w", "1x2x", "1b2w", "1w2e", "1m2z",
    "1wL2Lw", "1wC2Dw", "1Cw2w", "1C1w2Cw", "1w2Cw2C1C", "1Ww2w", "1wW2w", "1B1w2w", "1wC2Cw1w",
    "1rL2L3Lw", "1L2Lw3Lw", "1N1T", "1T1N", "1w2w|1r", "1be2e", "1r1w2r", "1C2C|1w2w",
};

static bool is_reported(const char *run) {
    int status;
    pid_t child = fork();
    if (child == 0) {
        if (freopen("/dev/null", "w", stderr)) {
            make_run(run);
        }
        _Exit(0);
    }
    return waitpid(child, &status, 0) == child && WIFEXITED(status) && WEXITSTATUS(status) == 1;
}

static int check_runs(const char *const *runs, size_t count, bool wanted) {
    int wrong = 0;
    for (size_t at = 0; at < count; at++) {
        if (is_reported(runs[at]) != wanted) {
            printf("%s is%s reported\n", runs[at], wanted ? " not" : "");
            wrong++;
        }
    }
    return wrong;
}

int main(void) {
    size_t quiets = sizeof quiet / sizeof *quiet, reports = sizeof reported / sizeof *reported;
    int wrong = check_runs(quiet, quiets, false) + check_runs(reported, reports, true);
    printf("%zu runs are reported, %zu are not\n", reports, quiets);
    return wrong > 0;
}
