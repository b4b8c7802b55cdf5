/* What is printed: each call as a line, and in the end a report with the last of them. */
#include "internal.h"

#include <stdarg.h>
#include <stdlib.h>

enum { LINES = 4096, TEXT = 100, SHOWN = 16, SHOWN_OF_IRP = 12 };

/* A call. */
struct line {
    uint64_t number; /* of all that there were */
    uint32_t thread;
    char text[TEXT];
};
/* The last lines of one IRP, since it was sent: they are kept however many others come after
 * them. */
struct history {
    uint64_t count;
    struct line lines[SHOWN_OF_IRP];
};
static struct line *lines;        /* LINES of them */
static struct history *histories; /* one for each IRP */
static _Atomic uint64_t next_line;
static struct iocsq_mutex report_mutex = IOCSQ_MUTEX;

static _Atomic uint32_t threads;
static ULONG chaos_seed;

IOCSQ_COUNTS iocsq_counts;
IOCSQ_COUNTS IocsqCounts(VOID) {
    return iocsq_counts;
}

__attribute__((constructor)) static void allocate_lines(void) {
    lines = calloc(LINES, sizeof *lines);
    histories = calloc(IOCSQ_IRPS, sizeof *histories);
    if (!lines || !histories) {
        abort();
    }
}

/* ---- Threads and chance ---- */
uint32_t iocsq_number_thread(void) {
    return ++threads;
}

/* A thread that is known has a number below it in any order. */
IOCSQ_COMMUTES uint32_t iocsq_thread_count(void) {
    return threads;
}

uint32_t iocsq_thread(void) {
    if (iocsq_own.thread == 0) {
        iocsq_own.thread = iocsq_number_thread();
        iocsq_own.random_state = iocsq_own.thread * 2654435761u ^ chaos_seed * 40503u ^ 1u;
    }
    return iocsq_own.thread;
}

uint32_t iocsq_random(void) {
    iocsq_thread();
    iocsq_own.random_state ^= iocsq_own.random_state << 13;
    iocsq_own.random_state ^= iocsq_own.random_state >> 17;
    iocsq_own.random_state ^= iocsq_own.random_state << 5;
    return iocsq_own.random_state;
}

uint32_t iocsq_draw(uint32_t below) {
    return iocsq_is_bounded() ? iocsq_choose_value(below) : iocsq_random() % below;
}

bool iocsq_rarely(uint32_t in) {
    return iocsq_is_bounded() ? iocsq_choose_value(2) != 0 : iocsq_random() % in == 0;
}

VOID IocsqChaos(ULONG Seed) {
    chaos_seed = Seed;
}

void iocsq_point(void) {
    if (iocsq_in_turns()) {
        iocsq_turn_point();
        return;
    }
    uint32_t face = chaos_seed ? iocsq_random() % 64 : 63;
    if (face == 0) {
        uint32_t most = iocsq_rarely(16) ? 3000000 : 50000; /* now and then a long delay */
        iocsq_sleep(iocsq_random() % most);
    } else if (face < 12) {
        iocsq_let_others_run();
    }
}

VOID IocsqPoint(VOID) {
    iocsq_point();
}

void iocsq_long_point(uint32_t in) {
    if (iocsq_in_turns()) {
        iocsq_long_turn_point(in);
    } else {
        iocsq_point();
    }
}

/* ---- Lines ---- */
/* Threads write them without a lock, since one that is torn as it is shown does no harm. */
__attribute__((no_sanitize("thread"))) static void write_line(struct line *to, uint64_t number,
                                                              const char *text) {
    to->number = number;
    to->thread = iocsq_thread();
    for (size_t at = 0; at < TEXT; at++) {
        to->text[at] = text[at];
    }
}

/* `sent`: the line is its first. */
__attribute__((no_sanitize("thread"))) static void write_history(uint32_t irp, bool sent,
                                                                 uint64_t number,
                                                                 const char *text) {
    struct history *of = &histories[irp];
    if (sent) {
        of->count = 0;
    }
    write_line(&of->lines[of->count++ % SHOWN_OF_IRP], number, text);
}

static uint64_t stops_at = UINT64_MAX; /* the call that a debugger waits for */

VOID IocsqStop(ULONG64 Call) {
    stops_at = Call;
}

__attribute__((format(IOCSQ_PRINTF, 3, 0))) static void add_line(const struct iocsq_irp *about,
                                                                 bool sent, const char *format,
                                                                 va_list rest) {
    char text[TEXT] = "";
    uint64_t number = next_line++;
    vsnprintf(text, sizeof text, format, rest);
    write_line(&lines[number % LINES], number, text);
    iocsq_trace_line(text);
    if (about) {
        write_history(about->index, sent, number, text);
    }
    if (number == stops_at) {
        iocsq_stop();
    }
}

void iocsq_log(const struct iocsq_irp *about, const char *format, ...) {
    va_list rest;
    va_start(rest, format);
    add_line(about, false, format, rest);
    va_end(rest);
}

void iocsq_log_of_driver(const char *call) {
    if (iocsq_own.during) {
        iocsq_log(NULL, "%s", call);
    }
}

void iocsq_log_sent(const struct iocsq_irp *about, const char *format, ...) {
    va_list rest;
    va_start(rest, format);
    add_line(about, true, format, rest);
    va_end(rest);
}

/* Shows the last so many lines, of a ring with room for `room`, to which `count` were written. */
__attribute__((no_sanitize("thread"))) static void show(const struct line *of, uint64_t count,
                                                        uint64_t room, uint64_t most) {
    uint64_t shown = count < most ? count : most;
    for (uint64_t at = count - shown; at < count; at++) {
        const struct line *line = &of[at % room];
        fprintf(stderr, "  %6llu t%-3u %s\n", (unsigned long long)line->number, line->thread,
                line->text);
    }
}

static void show_history(const struct iocsq_irp *of) {
    const struct history *history = &histories[of->index];
    fprintf(stderr, "  The calls of irp %u, the last ones:\n", of->index);
    show(history->lines, history->count, SHOWN_OF_IRP, SHOWN_OF_IRP);
}

void iocsq_show_last_calls(void) {
    fprintf(stderr, "  All calls, the last ones:\n");
    show(lines, next_line, LINES, SHOWN);
    iocsq_show_own_peeks();
    fflush(stderr);
}

/* ---- Ends ---- */
void iocsq_set_hint(const char *text) {
    iocsq_own.hint = text;
}

void iocsq_disagree(const struct iocsq_irp *about, const char *format, ...) {
    va_list rest;
    iocsq_lock(&report_mutex); /* for good: the first report ends the program */
    fprintf(stderr, "iocsq: t%u: ", iocsq_thread());
    va_start(rest, format);
    vfprintf(stderr, format, rest);
    va_end(rest);
    fprintf(stderr, "\n");
    if (iocsq_own.hint) {
        fprintf(stderr, "%s\n", iocsq_own.hint);
    }
    if (about) {
        iocsq_explain_hand(about);
    }
    iocsq_show_places(false);
    if (about) {
        show_history(about);
        iocsq_show_schedule(about);
        iocsq_note_schedule(about);
    }
    iocsq_show_last_calls();
    iocsq_exit(iocsq_own.report_status ? iocsq_own.report_status : IOCSQ_DISAGREES);
}

void iocsq_fail(const char *format, ...) {
    va_list rest;
    iocsq_lock(&report_mutex);
    fprintf(stderr, "iocsq itself: ");
    va_start(rest, format);
    vfprintf(stderr, format, rest);
    va_end(rest);
    fprintf(stderr, "\n");
    iocsq_show_last_calls();
    iocsq_abort();
}
