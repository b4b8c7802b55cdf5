/* Random calls of several queues in one thread, also from inside of their events, beside a model of
 * csq_requests.h. The arguments are the number of calls and the seed. The first answer that isn't
 * the model's ends the run. */
#include "requests_model_calls.h"

#include "eventfds.h"

/* ---- Cancels and deadlines ---- */

static void call_is_cancelled(struct model *it) {
    const struct csq_request request = { draw_name(it), draw(9), &unwritten };
    const struct entry *entry = find(it, request.name);
    number_is("what has named it", csq_requests_is_cancelled(it->real, &request),
              entry ? entry->why : (uint32_t)CSQ_WHY_NONE);
}

static void call_cancel(struct model *it) {
    const struct csq_irp name = draw_name(it);
    struct ending ending = { .name = &name, .why = CSQ_WHY_CANCEL }, *outer = it->ending;
    const struct entry *entry = find(it, name);
    void *value = &unwritten, *const want = entry ? entry->value : NULL;
    const uint32_t code = cancel(it, name, CSQ_WHY_CANCEL);
    ending.word = one_in(2) ? &ending : NULL;
    it->ending = &ending;
    if (code == CSQ_OK) {
        end_at_once(it);
    }
    code_is(ending.word ? csq_requests_cancel_with(it->real, name, ending.word, &value)
                        : csq_requests_cancel(it->real, name, &value),
            code);
    it->ending = outer;
    number_is("whether it is listed", code == CSQ_OK && find(it, name), 0);
    pointer_is("the value", value, code == CSQ_OK ? want : &unwritten);
}

/* When the next call is wanted, from now on. */
static void call_tick(struct model *it) {
    struct ending ending = { .is_due = 1, .why = CSQ_WHY_DUE }, *outer = it->ending;
    const uint64_t now = one_in(8) ? it->now - draw(9) % (it->now + 1)
                                   : it->now + draw(one_in(20) ? 1u << draw(31) : 60);
    const struct entry *next;
    uint32_t wait;
    it->now = now > it->now ? now : it->now;
    it->ending = &ending;
    end_at_once(it);
    if (!it->has_before && !it->has_after) {
        name_due(it, NULL);
    }
    wait = csq_requests_tick(it->real, now);
    name_due(it, NULL);
    it->ending = outer;
    next = first_due(it, CSQ_STAGE_NONE);
    number_is("whether one is due", next && next->due <= it->now, 0);
    number_is("the time to the next", wait,
              !next                                ? CSQ_FOREVER
              : next->due - it->now < CSQ_FOREVER ? next->due - it->now
                                                   : CSQ_FOREVER - 1);
}

/* ---- Drains ---- */

/* Closes a file object, if this is a cleanup. Returns whether there is this one. */
static uint32_t close_for(struct model *it, uint32_t file, uint32_t is_cleanup) {
    if (!is_cleanup) {
        return knows(it, file);
    }
    if (file >= it->size.files) {
        return 0;
    }
    it->file_closed[file] = 1;
    it->room_fds[file].readable = it->room_fds[ALL].readable = 1;
    return 1;
}

static uint32_t call_real_drain(struct model *it, uint32_t file, uint32_t is_cleanup, void *word) {
    const uint32_t milliseconds = one_in(500);
    if (word) {
        return is_cleanup ? csq_requests_cleanup_with(it->real, file, milliseconds, word)
                          : csq_requests_drain_with(it->real, file, milliseconds, word);
    }
    return is_cleanup ? csq_requests_cleanup(it->real, file, milliseconds)
                      : csq_requests_drain(it->real, file, milliseconds);
}

static void call_drain(struct model *it) {
    const uint32_t file = draw_file(it), is_cleanup = one_in(8);
    const uint32_t is_known = close_for(it, file, is_cleanup);
    struct ending ending = { .file = file, .why = is_cleanup ? CSQ_WHY_CLEANUP : CSQ_WHY_DRAIN };
    struct ending *outer = it->ending;
    uint32_t code;
    ending.word = one_in(2) ? &ending : NULL;
    it->ending = &ending;
    if (is_known) {
        end_at_once(it);
    }
    code = call_real_drain(it, file, is_cleanup, ending.word);
    it->ending = outer;
    number_is("how many are listed", is_known ? count_of(it, file, 1) : 0, 0);
    code_is(code, !is_known                    ? CSQ_UNKNOWN_FILE
                  : count_of(it, file, 0) > 0 ? CSQ_HOLDING
                                               : CSQ_OK);
}

static unsigned long starts;

static void call_start(struct model *it) {
    const uint32_t file = draw_file(it), is_cleanup = one_in(8);
    struct drain *drain = &it->drains[draw(DRAINS)];
    struct ending ending = { .file = file, .why = is_cleanup ? CSQ_WHY_CLEANUP : CSQ_WHY_DRAIN };
    struct ending *outer = it->ending;
    uint32_t is_known, code, want = CSQ_UNKNOWN_FILE;
    if (drain->is_on || drain->began) { /* the queue has its memory, or the call around has */
        return;
    }
    is_known = close_for(it, file, is_cleanup);
    ending.word = one_in(2) ? &ending : NULL;
    drain->quiet = (struct csq_quiet){ .quiet = is_quiet, .context = drain, .word = ending.word };
    drain->began = ++starts;
    it->ending = &ending;
    if (is_known) {
        end_at_once(it);
    }
    code = is_cleanup ? csq_requests_cleanup_start(it->real, file, &drain->quiet)
                      : csq_requests_drain_start(it->real, file, &drain->quiet);
    it->ending = outer;
    if (is_known) {
        want = count_of(it, file, 0) > 0 || it->telling[place(file)] > 0 ? CSQ_HOLDING : CSQ_OK;
        number_is("how many are listed", count_of(it, file, 1), 0);
    }
    code_is(code, want);
    drain->is_on = code == CSQ_HOLDING;
    drain->began = drain->is_on ? ++starts : 0; /* one of an event inside has come before */
    number_is("the file object of a drain", !drain->is_on || drain->quiet.file == file, 1);
}

/* ---- Looks ---- */

static void call_len(struct model *it) {
    const uint32_t file = draw_file(it), is_known = knows(it, file);
    uint32_t listed = UNWRITTEN, under_way = UNWRITTEN;
    code_is(csq_requests_len(it->real, file, &listed, &under_way),
            is_known ? CSQ_OK : CSQ_UNKNOWN_FILE);
    number_is("how many are listed", listed, is_known ? count_of(it, file, 1) : UNWRITTEN);
    number_is("how many are under way", under_way, is_known ? count_of(it, file, 0) : UNWRITTEN);
}

/* Of a program that was compiled with fewer numbers, or with more. */
static void call_read_stats(struct model *it) {
    struct { struct csq_requests_stats stats; char more[24]; } got;
    const uint32_t size = one_in(2) ? sizeof got.stats : draw(sizeof got + 1);
    const uint32_t is_size = size >= 8 && size % 8 == 0;
    const uint32_t known = size < sizeof got.stats ? size : (uint32_t)sizeof got.stats;
    struct csq_requests_stats want = it->stats;
    memset(&got, 0xAB, sizeof got);
    got.stats.size = size;
    code_is(csq_requests_read_stats(it->real, &got.stats), is_size ? CSQ_OK : CSQ_BAD_SIZE);
    want.size = known;
    for (size_t at = 0; at < sizeof got; at++) {
        const size_t sleeps = offsetof(struct csq_requests_stats, waits);
        const unsigned char byte = ((const unsigned char *)&got)[at];
        const uint32_t is_written = is_size && at < known;
        if ((at < sleeps || at >= sizeof want) && (is_written || at >= sizeof want.size)) {
            number_is("a byte of the statistics", byte,
                      is_written ? ((const unsigned char *)&want)[at] : 0xAB);
        }
    }
}

static void call_fd(struct model *it) {
    const uint32_t file = draw_file(it), is_room = one_in(2), is_known = knows(it, file);
    struct event_fd *fd = (is_room ? it->room_fds : it->listed_fds) + (is_known ? place(file) : 0);
    int got = -7;
    code_is(is_room ? csq_requests_room_fd(it->real, file, &got)
                    : csq_requests_fd(it->real, file, &got),
            !is_known ? CSQ_UNKNOWN_FILE : HAS_EVENTFDS ? CSQ_OK : CSQ_NO_MEMORY);
    if (is_known && HAS_EVENTFDS && !fd->is_there) {
        fd->is_there = 1;
        fd->number = got;
        fd->readable = is_room || it->closed || count_of(it, file, 1) > 0;
    }
    number_is("the number of an eventfd", (unsigned)got,
              is_known && HAS_EVENTFDS ? (unsigned)fd->number : -7u);
}

static void call_poll(struct model *it) {
    struct event_fd *const fds[] = { it->listed_fds, it->room_fds };
    for (uint32_t at = 0; at < 2 * (ALL + 1); at++) {
        const struct event_fd *fd = &fds[at % 2][at / 2];
        if (fd->is_there) {
            number_is(at % 2 ? "whether room is readable" : "whether a listed one is readable",
                      is_readable(fd->number), fd->readable);
        }
    }
}

/* ---- The run ---- */

/* The calls, and in how many of all turns each is made. */
static const struct call {
    const char *name;
    void (*make)(struct model *);
    uint32_t weight;
} calls[] = {
    { "csq_requests_submit", call_submit, 220 },
    { "csq_requests_submit_many", call_submit_many, 50 },
    { "csq_requests_next", call_next, 150 },
    { "csq_requests_next_many", call_next_many, 30 },
    { "csq_requests_complete", call_complete, 120 },
    { "csq_requests_complete_many", call_complete_many, 30 },
    { "csq_requests_put_back", call_put_back, 110 },
    { "csq_requests_is_cancelled", call_is_cancelled, 30 },
    { "csq_requests_cancel", call_cancel, 70 },
    { "csq_requests_tick", call_tick, 50 },
    { "csq_requests_drain", call_drain, 25 },
    { "csq_requests_drain_start", call_start, 20 },
    { "csq_requests_len", call_len, 30 },
    { "csq_requests_read_stats", call_read_stats, 10 },
    { "csq_requests_fd", call_fd, 13 },
    { "poll", call_poll, 33 },
    { "csq_requests_free", call_free, 6 },
    { "csq_requests_new", call_new, 2 },
    { "csq_requests_close", call_close, 1 },
};
enum { TURNS = 1000 };

static const struct call *draw_call(void) {
    const struct call *call = calls;
    uint32_t turn = draw(TURNS);
    while (turn >= call->weight) {
        turn -= call->weight;
        call++;
    }
    return call;
}

/* Between two calls no drain that is over waits to be told. */
static void each_is_told(const struct model *it) {
    for (uint32_t at = 0; depth == 0 && at < DRAINS; at++) {
        number_is("whether a drain is told", !it->drains[at].is_over, 1);
    }
}

/* Of a queue that isn't there the call is csq_requests_new. */
static void make_calls(uint32_t count) {
    for (; count > 0; count--) {
        struct model *it = &models[draw(QUEUES)];
        const struct call *call = draw_call();
        call_name = it->real ? call->name : "csq_requests_new";
        calls_made++;
        (it->real ? call->make : call_new)(it);
        each_is_told(it);
    }
}

static void end_all(void) {
    for (int at = 0; at < QUEUES; at++) {
        while (models[at].real) {
            call_name = "csq_requests_free";
            call_free(&models[at]);
        }
    }
}

int main(int count, char **words) {
    const unsigned long wanted = count > 1 ? strtoul(words[1], NULL, 10) : 1000000;
    seed = count > 2 ? strtoul(words[2], NULL, 10) : 1;
    drawn = seed * UINT64_C(0x9E3779B97F4A7C15) | 1;
    while (calls_made < wanted) {
        make_calls(1);
    }
    end_all();
    each_code_was_seen();
    printf("passed %lu random calls are as the model says\n", wanted);
    return 0;
}
