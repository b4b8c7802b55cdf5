/* What the code of csq_requests.h shares. None of it is for its callers. */
#ifndef REQUESTS_H
#define REQUESTS_H

#include "system.h"

#include "csq_requests.h"

/* The eventfds of a file object: for what is listed, and for room. */
enum { REQUESTS_LISTED, REQUESTS_ROOM, REQUESTS_FDS };

/* An eventfd. It is written after the mutex is free, so a write may come after the read that was
 * for it: `unread` says how many are still to be read. */
struct requests_fd {
    int above; /* one more than its number; 0 if there is none */
    uint32_t readable;
    uint64_t unread;
};

/* What is known of a file object, or of all of them, beside the ledger. */
struct requests_file {
    system_signal listed; /* signalled when a request is listed that its workers wait for */
    system_signal room;   /* signalled when a submit that waits may find room */
    uint32_t waiting;      /* how many sleep for `listed` */
    uint32_t wanting;      /* how many sleep for `room` */
    uint32_t draining;     /* how many drains sleep */
    uint32_t telling;      /* how many after_completion run of its requests */
    struct csq_quiet *quiets; /* those that are told once it is quiet, the last that began first */
    struct requests_fd fds[REQUESTS_FDS];
};

/* What is done once the mutex is free. */
enum { REQUESTS_WRITES = 4 };
struct requests_later {
    uint32_t is_any; /* 1 if there is anything */
    uint32_t write_count;
    int writes[REQUESTS_WRITES]; /* eventfds */
    struct csq_quiet *quiets;
};

enum requests_clock { REQUESTS_NO_CLOCK, REQUESTS_CLOCK_RUNS, REQUESTS_CLOCK_ENDS };

struct csq_requests {
    system_mutex mutex;
    system_signal drains; /* signalled when a request that a drain waits for ends or is listed */
    system_signal tick;   /* signalled when the clock has to look before it wakes */
    struct csq_ledger ledger;
    struct csq_requests_events events;
    uint32_t irps;
    uint32_t files;
    uint32_t closed;
    uint32_t watchers; /* how many sleep, are to be told, or are eventfds: while there are none, a
                        * call looks for none */
    void **values;            /* by IRP */
    struct requests_file *of; /* by file object, and last for all */
    struct requests_later later;
    uint64_t now;   /* the latest time of a tick */
    uint64_t wakes; /* when the clock's thread wakes; 0 while it is awake */
    uint32_t clock; /* of enum requests_clock */
    system_thread thread;
    uint64_t ended; /* how many requests have */
    struct csq_requests_stats stats;
};

/* How long a call waits, and whether that is over. */
struct requests_limit {
    uint32_t milliseconds;
    struct timespec end; /* unless it is 0 or CSQ_FOREVER */
    uint32_t yields;     /* how often it lets others run before it sleeps */
    int over;
};

static inline struct requests_file *requests_file(struct csq_requests *it, uint32_t file) {
    return &it->of[file == CSQ_ANY ? it->files : file];
}

static inline int requests_knows(const struct csq_requests *it, uint32_t file) {
    return file == CSQ_ANY || file < it->files;
}

/* Takes the mutex. A thread that finds it taken pauses and looks again before it sleeps. */
void requests_lock_later(struct csq_requests *it);
static inline void requests_lock(struct csq_requests *it) {
    if (!system_try_lock(&it->mutex)) {
        requests_lock_later(it);
    }
}

/* Frees the mutex, and does what is to be done then. */
void requests_unlock_and_do(struct csq_requests *it);
static inline void requests_unlock(struct csq_requests *it) {
    if (it->later.is_any) {
        requests_unlock_and_do(it);
    } else {
        system_unlock(&it->mutex);
    }
}

/* Frees the mutex, and returns a call's code. */
static inline uint32_t requests_return(struct csq_requests *it, uint32_t code) {
    requests_unlock(it);
    return code;
}

/* ---- Who waits, and who is told (wait.c) ---- */

struct requests_limit requests_limit_of(uint32_t milliseconds);

/* Lets others run, or sleeps, until the signal or until the limit's end; one of these that is
 * counted in *sleepers meanwhile. Returns 1 if it slept. */
uint32_t requests_pause(struct csq_requests *it, struct requests_limit *limit,
                        system_signal *signal, uint32_t *sleepers);

/* Makes an eventfd readable once the mutex is free, and unreadable. */
void requests_raise(struct csq_requests *it, struct requests_fd *fd);
void requests_lower(struct requests_fd *fd);

/* Wakes those that wait for what was just listed for a file object, or ends it if a drain was
 * started that isn't over. */
void requests_look_for_takers(struct csq_requests *it, uint32_t file);
static inline void requests_was_listed(struct csq_requests *it, uint32_t file) {
    if (it->watchers > 0) {
        requests_look_for_takers(it, file);
    }
}

/* Wakes those that wait for room, since one of this file object isn't listed any more. */
void requests_look_for_submits(struct csq_requests *it, uint32_t file);
static inline void requests_was_unlisted(struct csq_requests *it, uint32_t file) {
    if (it->watchers > 0) {
        requests_look_for_submits(it, file);
    }
}

/* Wakes and tells those that wait for a request's end. */
void requests_look_for_ends(struct csq_requests *it, const struct csq_ended *ended);
static inline void requests_has_ended(struct csq_requests *it, const struct csq_ended *ended) {
    if (it->watchers > 0) {
        requests_look_for_ends(it, ended);
    }
}

/* Wakes all who wait for room of a file object, since its submits are refused now. */
void requests_refuses(struct csq_requests *it, uint32_t file);

/* Whether no request of a file object is under way. */
int requests_none_under_way(struct csq_requests *it, uint32_t file);

/* Has those told, once the mutex is free, that wait until a file object is quiet, if it is. */
void requests_tell_quiet(struct csq_requests *it, uint32_t file);

/* ---- Ends without a worker (ends.c) ---- */

/* Completes a request that is ending, with the events. The mutex is held before and after. Returns
 * its value. */
void *requests_end(struct csq_requests *it, struct csq_irp name, void *word);

/* A drain with the mutex held. */
uint32_t requests_drain(struct csq_requests *it, uint32_t file, uint32_t milliseconds, uint32_t why,
                        void *word);

/* Ends the clock, which nobody has to have started, and lets nobody start one: an event of the free
 * would leave it a queue that isn't there. */
void requests_end_clock(struct csq_requests *it);

#endif
