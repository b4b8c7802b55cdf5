/* All calls of csq_requests.h by many threads at once, at random: each value comes out once, and
 * the statistics say what became of it. The argument is the number of calls of each thread. */
#include "requests_check.h"

#include "eventfds.h"

#include <pthread.h>
#include <sched.h>
#include <stdatomic.h>

enum { IRPS = 24, CALLERS = 4, WAITERS = 3, POLLERS = 2, SUBMITTERS = 3, HELD = 6, NAMES = 64 };

/* Who has a value, and whether its request is over: each is set once, and is `plain` written by the
 * one who has it alone. */
struct value {
    atomic_uint is_had, is_over;
    uint32_t file;
    unsigned plain;
};

/* A thread, with what it has taken. */
struct caller {
    uint32_t drawn;
    uint32_t file; /* of those that wait for one */
    uint32_t count;
    struct csq_request held[HELD];
    pthread_t thread;
};

static struct csq_requests *requests;
static unsigned long turns = 20000;
static atomic_ulong submitted, by_worker, by_why[8], told, started, faults;
static _Atomic uint64_t names[NAMES]; /* of late submits, for cancels by other threads */

static void fault_unless(int holds) {
    faults += !holds;
}

static uint32_t draw(struct caller *it, uint32_t below) {
    it->drawn ^= it->drawn << 13;
    it->drawn ^= it->drawn >> 17;
    it->drawn ^= it->drawn << 5;
    return (it->drawn >> 8) % below;
}

static uint32_t draw_file(struct caller *it) {
    return draw(it, 3) == 0 ? CSQ_ANY : draw(it, FILES);
}

/* ---- A value's way ---- */

static struct value *new_value(uint32_t file) {
    struct value *value = calloc(1, sizeof *value);
    fault_unless(value != NULL);
    value->file = file;
    return value;
}

static void take_value(struct value *value, uint32_t file) {
    fault_unless(atomic_exchange(&value->is_had, 1) == 0);
    fault_unless(value->file == file);
    value->plain++;
}

static void end_value(struct value *value) {
    value->plain++;
    fault_unless(atomic_exchange(&value->is_over, 1) == 0);
}

static void before_completion(void *context, const struct csq_ending *ending) {
    (void)context;
    take_value(ending->value, ending->file);
    by_why[ending->why]++;
}

/* The value of a cancel is freed by its caller. */
static void after_completion(void *context, const struct csq_ending *ending) {
    void *none = NULL;
    (void)context;
    end_value(ending->value);
    fault_unless(csq_requests_cancel(requests, ending->name, &none) == CSQ_STALE && !none);
    if (ending->why != CSQ_WHY_CANCEL) {
        free(ending->value);
    }
}

/* ---- The calls ---- */

static void was_submitted(struct caller *it, uint32_t code, struct value *value,
                          struct csq_irp name) {
    if (code == CSQ_OK) {
        submitted++;
        names[draw(it, NAMES)] = (uint64_t)name.life << 32 | name.irp;
    } else {
        fault_unless(code == CSQ_FULL || code == CSQ_FILE_FULL || code == CSQ_CLOSED);
        free(value);
    }
}

static struct csq_submit draw_submit(struct caller *it) {
    const uint32_t file = draw(it, FILES);
    struct csq_submit made = { new_value(file), file, draw(it, 2), draw(it, 3), 0 };
    made.due = draw(it, 2) ? csq_requests_now() + draw(it, 5) : 0;
    return made;
}

static void do_submit(struct caller *it) {
    const struct csq_submit made = draw_submit(it);
    struct csq_irp name = { 0, 0 };
    was_submitted(it, csq_requests_submit_with(requests, &made, &name), made.value, name);
}

static void do_submit_many(struct caller *it) {
    struct csq_submit made[4];
    struct csq_irp batch[4];
    uint32_t count = 0;
    for (int at = 0; at < 4; at++) {
        made[at] = draw_submit(it);
    }
    (void)!csq_requests_submit_many(requests, made, 4, batch, &count);
    for (uint32_t at = 0; at < 4; at++) {
        was_submitted(it, at < count ? CSQ_OK : CSQ_FULL, made[at].value, batch[at]);
    }
}

static void was_taken(const struct csq_request *request, uint32_t file) {
    fault_unless(file == CSQ_ANY || request->file == file);
    take_value(request->value, request->file);
}

static void do_next(struct caller *it) {
    const uint32_t file = draw_file(it);
    struct csq_request *request = &it->held[it->count];
    if (it->count == HELD) {
        return;
    }
    if (csq_requests_next(requests, file, draw(it, 64) == 0, request) == CSQ_OK) {
        was_taken(request, file);
        it->count++;
    }
}

/* A batch is completed at once, and not twice. */
static void do_next_many(struct caller *it) {
    const uint32_t file = draw_file(it);
    struct csq_request batch[4];
    uint32_t taken = 0, completed = 0;
    if (csq_requests_next_many(requests, file, 0, batch, 4, &taken) != CSQ_OK) {
        fault_unless(taken == 0);
        return;
    }
    for (uint32_t at = 0; at < taken; at++) {
        was_taken(&batch[at], file);
        end_value(batch[at].value);
    }
    fault_unless(csq_requests_complete_many(requests, batch, taken, 0, &completed) == CSQ_OK);
    fault_unless(csq_requests_complete_many(requests, batch, taken, 0, &completed) ==
                     CSQ_NOT_HELD && completed == 0);
    by_worker += taken;
    for (uint32_t at = 0; at < taken; at++) {
        free(batch[at].value);
    }
}

static void complete(const struct csq_request *request) {
    const uint32_t why = csq_requests_is_cancelled(requests, request);
    fault_unless(why == CSQ_WHY_NONE || why == CSQ_WHY_CANCEL || why == CSQ_WHY_DUE);
    end_value(request->value);
    fault_unless(csq_requests_complete(requests, request, CSQ_STATUS_CANCELLED) == CSQ_OK);
    fault_unless(csq_requests_complete(requests, request, CSQ_STATUS_CANCELLED) == CSQ_NOT_HELD);
    by_worker++;
    free(request->value);
}

/* Completes one that it has, or puts it back. */
static void do_finish(struct caller *it) {
    struct csq_request request;
    struct value *value;
    uint32_t code = CSQ_FULL;
    if (it->count == 0) {
        return;
    }
    request = it->held[--it->count];
    value = request.value;
    if (draw(it, 2)) {
        value->plain++;
        value->is_had = 0;
        code = csq_requests_put_back(requests, &request, draw(it, 2));
        if (code != CSQ_OK) {
            fault_unless(atomic_exchange(&value->is_had, 1) == 0);
        }
    }
    if (code != CSQ_OK) {
        fault_unless(code != CSQ_CANCELLED || csq_requests_is_cancelled(requests, &request));
        complete(&request);
    }
}

static void do_cancel(struct caller *it) {
    const uint64_t number = names[draw(it, NAMES)];
    const struct csq_irp name = { (uint32_t)number, (uint32_t)(number >> 32) };
    void *value = NULL;
    const uint32_t code = csq_requests_cancel(requests, name, &value);
    if (code == CSQ_OK) {
        fault_unless(((struct value *)value)->is_over == 1);
        free(value);
    } else {
        fault_unless(code == CSQ_NONE || code == CSQ_STALE);
    }
}

static void do_drain(struct caller *it) {
    const uint32_t code = csq_requests_drain(requests, draw_file(it), draw(it, 2));
    fault_unless(code == CSQ_OK || code == CSQ_HOLDING);
}

/* Each drain that is started is told once, by some thread, and its memory is freed then. */
static void is_quiet(struct csq_quiet *quiet) {
    told++;
    free(quiet);
}

static void do_start(struct caller *it) {
    struct csq_quiet *quiet = calloc(1, sizeof *quiet);
    fault_unless(quiet != NULL);
    quiet->quiet = is_quiet;
    started++;
    if (csq_requests_drain_start(requests, draw_file(it), quiet) == CSQ_OK) {
        is_quiet(quiet);
    }
}

static void do_look(struct caller *it) {
    struct csq_requests_stats stats = { sizeof stats, 0, 0, 0, 0, 0, { 0 }, 0, 0, 0, 0 };
    uint64_t ends;
    fault_unless(under_way(requests, draw_file(it)) <= IRPS);
    fault_unless(csq_requests_read_stats(requests, &stats) == CSQ_OK);
    ends = stats.completed;
    for (int why = 0; why < 8; why++) {
        ends += stats.ended[why];
    }
    fault_unless(ends <= stats.submitted && stats.submitted - ends <= stats.most_under_way);
    csq_requests_tick(requests, csq_requests_now());
}

/* ---- The threads ---- */

static void *call_all(void *of) {
    static const struct { void (*call)(struct caller *); uint32_t weight; } calls[] = {
        { do_submit, 300 }, { do_submit_many, 50 }, { do_next, 240 }, { do_next_many, 60 },
        { do_finish, 200 }, { do_cancel, 116 },     { do_drain, 2 },  { do_start, 2 },
        { do_look, 30 },
    };
    struct caller *it = of;
    for (unsigned long turn = 0; turn < turns; turn++) {
        uint32_t drawn = draw(it, 1000), at = 0;
        while (drawn >= calls[at].weight) {
            drawn -= calls[at++].weight;
        }
        calls[at].call(it);
    }
    while (it->count > 0) {
        complete(&it->held[--it->count]);
    }
    return NULL;
}

static void *wait_for_all(void *of) {
    const struct caller *it = of;
    struct csq_request request;
    while (csq_requests_next(requests, it->file, CSQ_FOREVER, &request) == CSQ_OK) {
        was_taken(&request, it->file);
        complete(&request);
    }
    return NULL;
}

/* Waits for the eventfd alone, if there is one. */
static void *poll_for_all(void *of) {
    const struct caller *it = of;
    struct csq_request request;
    const uint32_t milliseconds = HAS_EVENTFDS ? 0 : LONG_TIME;
    int fd = -1;
    uint32_t code = csq_requests_fd(requests, it->file, &fd);
    while (code != CSQ_CLOSED) {
        fault_unless(!HAS_EVENTFDS || becomes_readable(fd, LONG_TIME) == 1);
        while ((code = csq_requests_next(requests, it->file, milliseconds, &request)) == CSQ_OK) {
            was_taken(&request, it->file);
            complete(&request);
        }
    }
    return NULL;
}

/* Submits that wait without a limit: each is woken in the end, by room or by the close. */
static void *submit_all(void *of) {
    struct caller *it = of;
    struct csq_irp name = { 0, 0 };
    uint32_t code = CSQ_OK;
    while (code == CSQ_OK) {
        struct csq_submit made = draw_submit(it);
        made.milliseconds = CSQ_FOREVER;
        code = csq_requests_submit_with(requests, &made, &name);
        was_submitted(it, code, made.value, name);
        if (draw(it, 4) == 0) {
            sched_yield();
        }
    }
    fault_unless(code == CSQ_CLOSED);
    return NULL;
}

static void begin(uint32_t list) {
    static const uint32_t limits[FILES] = { IRPS, 2, 8 };
    const struct csq_requests_events events = { before_completion, after_completion, NULL };
    struct csq_size size = size_of(IRPS, FILES, list);
    size.limit = IRPS - 4;
    submitted = by_worker = told = started = faults = 0;
    for (int why = 0; why < 8; why++) {
        by_why[why] = 0;
    }
    IS(csq_requests_new(&requests, &size, limits, &events), CSQ_OK);
    IS(csq_requests_start_clock(requests), CSQ_OK);
}

/* Once all that is listed is drained, what was counted on both sides is the same. */
static void end_all(void) {
    struct csq_requests_stats stats = { sizeof stats, 0, 0, 0, 0, 0, { 0 }, 0, 0, 0, 0 };
    unsigned long ends = 0;
    IS(csq_requests_drain(requests, CSQ_ANY, LONG_TIME), CSQ_OK);
    IS(csq_requests_read_stats(requests, &stats), CSQ_OK);
    IS(csq_requests_free(&requests), CSQ_OK);
    for (int why = 0; why < 8; why++) {
        IS(stats.ended[why], by_why[why]);
        ends += by_why[why];
    }
    IS(stats.submitted, submitted);
    IS(stats.completed, by_worker);
    IS(submitted, by_worker + ends);
    IS(told, started);
    IS(faults, 0);
    snprintf(check_note, sizeof check_note, " (of %lu %lu by workers, %lu cancelled, %lu due)",
             atomic_load(&submitted), atomic_load(&by_worker),
             atomic_load(&by_why[CSQ_WHY_CANCEL]), atomic_load(&by_why[CSQ_WHY_DUE]));
}

static void each_value_comes_out_once_in_a_storm(uint32_t list) {
    static const struct { void *(*run)(void *); uint32_t count; } rows[] = {
        { call_all, CALLERS }, { wait_for_all, WAITERS }, { poll_for_all, POLLERS },
        { submit_all, SUBMITTERS },
    };
    struct caller callers[CALLERS + WAITERS + POLLERS + SUBMITTERS];
    uint32_t at = 0;
    memset(callers, 0, sizeof callers);
    begin(list);
    for (size_t row = 0; row < sizeof rows / sizeof *rows; row++) {
        for (uint32_t of = 0; of < rows[row].count; of++, at++) {
            callers[at].drawn = 2654435761u * (at + 1);
            callers[at].file = of == 0 ? CSQ_ANY : of;
            IS((unsigned)pthread_create(&callers[at].thread, NULL, rows[row].run, &callers[at]), 0);
        }
    }
    for (at = 0; at < sizeof callers / sizeof *callers; at++) {
        if (at == CALLERS) {
            csq_requests_close(requests);
        }
        IS((unsigned)pthread_join(callers[at].thread, NULL), 0);
    }
    end_all();
}

int main(int count, char **words) {
    if (count > 1) {
        turns = strtoul(words[1], NULL, 10);
    }
    RUN_BOTH(each_value_comes_out_once_in_a_storm);
    return DONE();
}
