/* csq_requests.h: the ends of requests without a worker: cancels, deadlines, drains. */
#include "requests.h"

/* ---- The events ---- */

/* What runs after the completion keeps the file object, and all, from being quiet. */
static void tell_completion(struct csq_requests *it, const struct csq_requests_events *events,
                            const struct csq_ending *ending) {
    requests_unlock(it);
    events->after_completion(events->context, ending);
    requests_lock(it);
    requests_file(it, ending->file)->telling--;
    requests_file(it, CSQ_ANY)->telling--;
    requests_tell_quiet(it, ending->file);
    requests_tell_quiet(it, CSQ_ANY);
}

void *requests_end(struct csq_requests *it, struct csq_irp name, void *word) {
    const struct csq_requests_events events = it->events;
    const int tells = events.after_completion != NULL;
    struct csq_ending ending = { { 0, 0 }, 0, 0, NULL, NULL };
    struct csq_look look = { 0, 0, 0 };
    struct csq_ended ended = { 0, 0, 0 };
    uint32_t code = csq_ledger_look(&it->ledger, name, &look);
    ending.name = name;
    ending.file = look.file;
    ending.why = look.why;
    ending.value = it->values[name.irp];
    ending.word = word;
    requests_was_unlisted(it, look.file);
    if (events.before_completion) {
        requests_unlock(it);
        events.before_completion(events.context, &ending);
        requests_lock(it);
    }
    /* Never refused: what is ending is ended by this call alone. */
    code |= csq_ledger_end(&it->ledger, name, &ended);
    (void)code;
    it->stats.ended[look.why]++;
    it->ended++;
    requests_file(it, look.file)->telling += (uint32_t)tells;
    requests_file(it, CSQ_ANY)->telling += (uint32_t)tells;
    requests_has_ended(it, &ended);
    if (tells) {
        tell_completion(it, &events, &ending);
    }
    return ending.value;
}

/* ---- Cancels ---- */

uint32_t csq_requests_cancel_with(struct csq_requests *it, struct csq_irp name, void *word,
                                  void **value) {
    uint32_t code;
    requests_lock(it);
    code = csq_ledger_cancel(&it->ledger, name, CSQ_WHY_CANCEL);
    if (code == CSQ_OK) {
        *value = requests_end(it, name, word);
    }
    return requests_return(it, code);
}

uint32_t csq_requests_cancel(struct csq_requests *it, struct csq_irp name, void **value) {
    return csq_requests_cancel_with(it, name, NULL, value);
}

/* ---- Deadlines ---- */

/* Cancels what is due, and returns when the next one is, or CSQ_NEVER. */
static uint64_t cancel_due(struct csq_requests *it, uint64_t now) {
    struct csq_irp name = { 0, 0 };
    uint64_t next = CSQ_NEVER;
    uint32_t stage = 0;
    it->now = now > it->now ? now : it->now;
    while (csq_ledger_expire(&it->ledger, it->now, &name, &stage) == CSQ_OK) {
        if (stage == CSQ_STAGE_ENDING) {
            requests_end(it, name, NULL);
        }
    }
    csq_ledger_next_due(&it->ledger, &next);
    return next;
}

uint32_t csq_requests_tick(struct csq_requests *it, uint64_t now) {
    uint64_t next, wait;
    requests_lock(it);
    next = cancel_due(it, now);
    wait = next - it->now;
    requests_unlock(it);
    if (next == CSQ_NEVER) {
        return CSQ_FOREVER;
    }
    return wait < CSQ_FOREVER ? (uint32_t)wait : CSQ_FOREVER - 1;
}

uint64_t csq_requests_now(void) {
    const struct timespec now = system_now();
    return (uint64_t)now.tv_sec * 1000 + (uint64_t)now.tv_nsec / 1000000;
}

/* Sleeps until a time of csq_requests_now, which may be CSQ_NEVER. */
static void sleep_until(struct csq_requests *it, uint64_t time) {
    static const uint64_t latest = INT32_MAX;
    struct timespec end = { 0, 0 };
    end.tv_sec = (time_t)(time / 1000 < latest ? time / 1000 : latest);
    end.tv_nsec = (long)(time % 1000) * 1000000;
    it->wakes = time;
    system_sleep(&it->tick, &it->mutex, time == CSQ_NEVER ? NULL : &end);
    it->wakes = 0;
}

static SYSTEM_RUN run_clock(void *of) {
    struct csq_requests *it = of;
    requests_lock(it);
    while (it->clock == REQUESTS_CLOCK_RUNS) {
        const uint64_t next = cancel_due(it, csq_requests_now());
        if (it->later.is_any) {
            requests_unlock(it);
            requests_lock(it);
        } else if (it->clock == REQUESTS_CLOCK_RUNS) {
            sleep_until(it, next);
        }
    }
    requests_unlock(it);
    return 0;
}

uint32_t csq_requests_start_clock(struct csq_requests *it) {
    uint32_t code = CSQ_NOT_EMPTY;
    requests_lock(it);
    if (it->clock == REQUESTS_NO_CLOCK) {
        it->clock = REQUESTS_CLOCK_RUNS;
        code = CSQ_OK;
        if (!system_start(&it->thread, run_clock, it)) {
            it->clock = REQUESTS_NO_CLOCK;
            code = CSQ_NO_MEMORY;
        }
    }
    return requests_return(it, code);
}

void requests_end_clock(struct csq_requests *it) {
    int runs;
    requests_lock(it);
    runs = it->clock == REQUESTS_CLOCK_RUNS;
    it->clock = REQUESTS_CLOCK_ENDS;
    if (runs) {
        system_wake(&it->tick);
    }
    requests_unlock(it);
    if (runs) {
        system_join(it->thread);
    }
}

/* ---- Drains ---- */

uint32_t requests_drain(struct csq_requests *it, uint32_t file, uint32_t milliseconds, uint32_t why,
                        void *word) {
    struct requests_limit limit = requests_limit_of(milliseconds);
    struct csq_irp name = { 0, 0 };
    uint32_t of_file = 0;
    for (;;) {
        if (csq_ledger_drain_next(&it->ledger, file, why, &name, &of_file) == CSQ_OK) {
            requests_end(it, name, word);
        } else if (requests_none_under_way(it, file)) {
            return CSQ_OK;
        } else if (limit.over) {
            return CSQ_HOLDING;
        } else {
            requests_pause(it, &limit, &it->drains, &requests_file(it, file)->draining);
        }
    }
}

/* Closes a file object for good, if the cause is a cleanup. */
static uint32_t close_file(struct csq_requests *it, uint32_t file, uint32_t why) {
    uint32_t code;
    if (why != CSQ_WHY_CLEANUP) {
        return requests_knows(it, file) ? CSQ_OK : CSQ_UNKNOWN_FILE;
    }
    code = csq_ledger_close_file(&it->ledger, file);
    if (code == CSQ_OK) {
        requests_refuses(it, file);
    }
    return code;
}

static uint32_t drain_for(struct csq_requests *it, uint32_t file, uint32_t milliseconds,
                          uint32_t why, void *word) {
    uint32_t code;
    requests_lock(it);
    code = close_file(it, file, why);
    if (code == CSQ_OK) {
        code = requests_drain(it, file, milliseconds, why, word);
    }
    return requests_return(it, code);
}

uint32_t csq_requests_drain_with(struct csq_requests *it, uint32_t file, uint32_t milliseconds,
                                 void *word) {
    return drain_for(it, file, milliseconds, CSQ_WHY_DRAIN, word);
}

uint32_t csq_requests_drain(struct csq_requests *it, uint32_t file, uint32_t milliseconds) {
    return drain_for(it, file, milliseconds, CSQ_WHY_DRAIN, NULL);
}

uint32_t csq_requests_cleanup_with(struct csq_requests *it, uint32_t file, uint32_t milliseconds,
                                   void *word) {
    return drain_for(it, file, milliseconds, CSQ_WHY_CLEANUP, word);
}

uint32_t csq_requests_cleanup(struct csq_requests *it, uint32_t file, uint32_t milliseconds) {
    return drain_for(it, file, milliseconds, CSQ_WHY_CLEANUP, NULL);
}

static uint32_t start_drain(struct csq_requests *it, uint32_t file, uint32_t why,
                            struct csq_quiet *quiet) {
    uint32_t code;
    requests_lock(it);
    code = close_file(it, file, why);
    if (code == CSQ_OK) {
        struct requests_file *of = requests_file(it, file);
        code = requests_drain(it, file, 0, why, quiet->word);
        if (code == CSQ_HOLDING || of->telling > 0) {
            code = CSQ_HOLDING;
            quiet->file = file;
            quiet->why = why;
            quiet->next = of->quiets;
            of->quiets = quiet;
            it->watchers++;
        }
    }
    return requests_return(it, code);
}

uint32_t csq_requests_drain_start(struct csq_requests *it, uint32_t file, struct csq_quiet *quiet) {
    return start_drain(it, file, CSQ_WHY_DRAIN, quiet);
}

uint32_t csq_requests_cleanup_start(struct csq_requests *it, uint32_t file,
                                    struct csq_quiet *quiet) {
    return start_drain(it, file, CSQ_WHY_CLEANUP, quiet);
}
