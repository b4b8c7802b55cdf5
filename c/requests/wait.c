/* csq_requests.h: who waits, who is woken, and who is told once the mutex is free. */
#include "requests.h"

/* How often a thread lets others run before it sleeps; and the turns of a pause, in which another
 * thread's call of this queue mostly ends: each is twice as long as the one before. */
enum { YIELDS = 4, FIRST_PAUSE = 32, LAST_PAUSE = 1024 };

static void pause_for(uint32_t turns) {
    for (; turns > 0; turns--) {
#if defined(__x86_64__)
        __builtin_ia32_pause();
#else
        __asm__ volatile("" ::: "memory");
#endif
    }
}

void requests_lock_later(struct csq_requests *it) {
    uint32_t turns;
    for (turns = FIRST_PAUSE; turns <= LAST_PAUSE; turns *= 2) {
        pause_for(turns);
        if (system_try_lock(&it->mutex)) {
            return;
        }
    }
    system_lock(&it->mutex);
}

void requests_unlock_and_do(struct csq_requests *it) {
    static const struct requests_later nothing = { 0, 0, { 0 }, NULL };
    struct requests_later later = it->later;
    uint32_t at;
    it->later = nothing;
    system_unlock(&it->mutex);
    for (at = 0; at < later.write_count; at++) {
        system_raise_fd(later.writes[at]);
    }
    while (later.quiets) {
        struct csq_quiet *quiet = later.quiets;
        later.quiets = quiet->next; /* its memory is the caller's again */
        quiet->quiet(quiet);
    }
}

struct requests_limit requests_limit_of(uint32_t milliseconds) {
    struct requests_limit limit = { milliseconds, { 0, 0 }, YIELDS, milliseconds == 0 };
    if (milliseconds == 0 || milliseconds == CSQ_FOREVER) {
        return limit;
    }
    limit.end = system_now();
    limit.end.tv_sec += (time_t)(milliseconds / 1000);
    limit.end.tv_nsec += (long)(milliseconds % 1000) * 1000000;
    if (limit.end.tv_nsec >= 1000000000) {
        limit.end.tv_sec++;
        limit.end.tv_nsec -= 1000000000;
    }
    return limit;
}

uint32_t requests_pause(struct csq_requests *it, struct requests_limit *limit,
                        system_signal *signal, uint32_t *sleepers) {
    /* A sleep frees the mutex as it is, so what is to be done then comes before. */
    if (limit->yields > 0 || it->later.is_any) {
        limit->yields -= limit->yields > 0;
        requests_unlock(it);
        system_yield();
        requests_lock(it);
        return 0;
    }
    ++*sleepers;
    it->watchers++;
    limit->over = system_sleep(signal, &it->mutex,
                               limit->milliseconds == CSQ_FOREVER ? NULL : &limit->end);
    it->watchers--;
    --*sleepers;
    return 1;
}

/* ---- Eventfds ---- */

void requests_raise(struct csq_requests *it, struct requests_fd *fd) {
    struct requests_later *later = &it->later;
    if (!fd->above || fd->readable) {
        return;
    }
    fd->readable = 1;
    fd->unread++;
    if (later->write_count == REQUESTS_WRITES) {
        system_raise_fd(fd->above - 1);
    } else {
        later->is_any = 1;
        later->writes[later->write_count++] = fd->above - 1;
    }
}

/* A write that another thread has yet to make is read the next time. */
void requests_lower(struct requests_fd *fd) {
    uint64_t count = 0;
    if (fd->unread > 0 && system_lower_fd(fd->above - 1, &count)) {
        fd->unread -= count;
    }
    fd->readable = 0;
}

/* ---- Who is woken ---- */

static void wake_drains(struct csq_requests *it, uint32_t file) {
    if (requests_file(it, file)->draining + requests_file(it, CSQ_ANY)->draining > 0) {
        system_wake_all(&it->drains);
    }
}

static void wake_worker(struct csq_requests *it, uint32_t file) {
    struct requests_file *of = requests_file(it, file);
    if (of->waiting > 0) {
        system_wake(&of->listed);
    }
    requests_raise(it, &of->fds[REQUESTS_LISTED]);
}

static void wake_submit(struct csq_requests *it, uint32_t file) {
    struct requests_file *of = requests_file(it, file);
    if (of->wanting > 0) {
        system_wake(&of->room);
    }
    requests_raise(it, &of->fds[REQUESTS_ROOM]);
}

/* The drain that was started last for a file object, or else for any, and isn't over. */
static const struct csq_quiet *drain_of(struct csq_requests *it, uint32_t file) {
    const struct csq_quiet *quiet = requests_file(it, file)->quiets;
    return quiet ? quiet : requests_file(it, CSQ_ANY)->quiets;
}

void requests_look_for_takers(struct csq_requests *it, uint32_t file) {
    const struct csq_quiet *quiet = drain_of(it, file);
    struct csq_irp name = { 0, 0 };
    uint32_t of_file = file;
    if (!quiet) {
        wake_worker(it, file);
        wake_worker(it, CSQ_ANY);
        wake_drains(it, file);
    } else if (csq_ledger_drain_next(&it->ledger, file, quiet->why, &name, &of_file) == CSQ_OK) {
        /* It was the only one: none stays listed where a drain isn't over. */
        requests_end(it, name, quiet->word);
    }
}

/* A submit that waits for a number waits on if none is free. */
void requests_look_for_submits(struct csq_requests *it, uint32_t file) {
    const struct requests_file *all = requests_file(it, CSQ_ANY);
    uint32_t listed = 0, under_way = it->irps;
    wake_submit(it, file);
    if (all->wanting > 0 || all->fds[REQUESTS_ROOM].above) {
        csq_ledger_len(&it->ledger, CSQ_ANY, &listed, &under_way);
    }
    if (under_way < it->irps) {
        wake_submit(it, CSQ_ANY);
    }
}

void requests_refuses(struct csq_requests *it, uint32_t file) {
    const uint32_t both[] = { file, CSQ_ANY };
    uint32_t at;
    for (at = 0; at < 2; at++) {
        struct requests_file *of = requests_file(it, both[at]);
        system_wake_all(&of->room);
        requests_raise(it, &of->fds[REQUESTS_ROOM]);
    }
}

/* ---- Who is told ---- */

int requests_none_under_way(struct csq_requests *it, uint32_t file) {
    uint32_t listed = 0, under_way = 0;
    return csq_ledger_len(&it->ledger, file, &listed, &under_way) == CSQ_OK && under_way == 0;
}

void requests_tell_quiet(struct csq_requests *it, uint32_t file) {
    struct requests_file *of = requests_file(it, file);
    if (!of->quiets || of->telling > 0 || !requests_none_under_way(it, file)) {
        return;
    }
    while (of->quiets) {
        struct csq_quiet *quiet = of->quiets;
        of->quiets = quiet->next;
        it->watchers--;
        quiet->next = it->later.quiets;
        it->later.quiets = quiet;
        it->later.is_any = 1;
    }
}

void requests_look_for_ends(struct csq_requests *it, const struct csq_ended *ended) {
    wake_submit(it, CSQ_ANY);
    if (ended->file_is_quiet) { /* as it is if all are */
        wake_drains(it, ended->file);
        requests_tell_quiet(it, ended->file);
        requests_tell_quiet(it, CSQ_ANY);
    }
}
