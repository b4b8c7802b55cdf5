/* csq_requests.h: a queue's beginning and end, and its eventfds. */
#include "requests.h"

#include <stdlib.h>

static void close_fds(struct requests_file *of) {
    uint32_t which;
    for (which = 0; which < REQUESTS_FDS; which++) {
        if (of->fds[which].above) {
            system_close_fd(of->fds[which].above - 1);
        }
    }
}

/* Frees a queue that has its mutex, its own signals, and those of this number of file objects. */
static void unmake(struct csq_requests *it, uint32_t files) {
    uint32_t code = it->ledger.at ? csq_ledger_free(&it->ledger) : (uint32_t)CSQ_OK;
    (void)code; /* nothing is under way */
    while (files > 0) {
        struct requests_file *of = &it->of[--files];
        system_unmake_signal(&of->listed);
        system_unmake_signal(&of->room);
        close_fds(of);
    }
    system_unmake_signal(&it->drains);
    system_unmake_signal(&it->tick);
    system_unmake_mutex(&it->mutex);
    free(it->values);
    free(it->of);
    free(it);
}

/* A queue of nothing, with its mutex and its own signals, or NULL. */
static struct csq_requests *make_empty(void) {
    struct csq_requests *it = (struct csq_requests *)calloc(1, sizeof *it);
    if (!it) {
        return NULL;
    }
    if (system_make_mutex(&it->mutex)) {
        if (system_make_signals(&it->drains, &it->tick)) {
            return it;
        }
        system_unmake_mutex(&it->mutex);
    }
    free(it);
    return NULL;
}

/* Makes the ledger, and the memory beside it. Stores how many file objects have their signals. */
static uint32_t fill(struct csq_requests *it, const struct csq_size *size,
                     const uint32_t *file_limits, uint32_t *files) {
    uint32_t code = file_limits ? csq_ledger_new_with_file_limits(&it->ledger, size, file_limits,
                                                                  size->files)
                                : csq_ledger_new(&it->ledger, size);
    if (code != CSQ_OK) {
        return code;
    }
    it->irps = size->irps;
    it->files = size->files;
    it->values = (void **)calloc(size->irps, sizeof *it->values);
    it->of = (struct requests_file *)calloc((size_t)size->files + 1, sizeof *it->of);
    while (it->values && it->of && *files <= size->files &&
           system_make_signals(&it->of[*files].listed, &it->of[*files].room)) {
        ++*files;
    }
    return *files > size->files ? (uint32_t)CSQ_OK : (uint32_t)CSQ_NO_MEMORY;
}

uint32_t csq_requests_new(struct csq_requests **requests, const struct csq_size *size,
                          const uint32_t *file_limits, const struct csq_requests_events *events) {
    struct csq_requests *it;
    uint32_t code, files = 0;
    if (*requests) {
        return CSQ_NOT_EMPTY;
    }
    it = make_empty();
    if (!it) {
        return CSQ_NO_MEMORY;
    }
    code = fill(it, size, file_limits, &files);
    if (code != CSQ_OK) {
        unmake(it, files);
        return code;
    }
    if (events) {
        it->events = *events;
    }
    *requests = it;
    return CSQ_OK;
}

void csq_requests_close(struct csq_requests *it) {
    uint32_t file;
    requests_lock(it);
    csq_ledger_close(&it->ledger);
    it->closed = 1;
    for (file = 0; file <= it->files; file++) {
        struct requests_file *of = &it->of[file];
        system_wake_all(&of->listed);
        system_wake_all(&of->room);
        requests_raise(it, &of->fds[REQUESTS_LISTED]);
        requests_raise(it, &of->fds[REQUESTS_ROOM]);
    }
    requests_unlock(it);
}

uint32_t csq_requests_free(struct csq_requests **requests) {
    struct csq_requests *it = *requests;
    uint32_t code;
    if (!it) {
        return CSQ_OK;
    }
    requests_end_clock(it);
    csq_requests_close(it);
    requests_lock(it);
    code = requests_return(it, requests_drain(it, CSQ_ANY, 0, CSQ_WHY_FREE, NULL));
    it->clock = REQUESTS_NO_CLOCK;
    if (code == CSQ_OK) {
        unmake(it, it->files + 1);
        *requests = NULL;
    }
    return code;
}

/* ---- Eventfds ---- */

/* Stores the number of an eventfd, which is made at the first call. */
static uint32_t fd_of(struct csq_requests *it, uint32_t file, uint32_t which, int *number) {
    struct requests_fd *fd;
    uint32_t listed = 0, under_way = 0, code = CSQ_OK;
    if (!requests_knows(it, file)) {
        return CSQ_UNKNOWN_FILE;
    }
    requests_lock(it);
    fd = &requests_file(it, file)->fds[which];
    if (!fd->above) {
        csq_ledger_len(&it->ledger, file, &listed, &under_way);
        fd->above = system_make_fd() + 1;
        it->watchers += fd->above != 0;
        if (which == REQUESTS_ROOM || listed > 0 || it->closed) {
            requests_raise(it, fd);
        }
    }
    if (fd->above) {
        *number = fd->above - 1;
    } else {
        code = CSQ_NO_MEMORY;
    }
    return requests_return(it, code);
}

uint32_t csq_requests_fd(struct csq_requests *it, uint32_t file, int *fd) {
    return fd_of(it, file, REQUESTS_LISTED, fd);
}

uint32_t csq_requests_room_fd(struct csq_requests *it, uint32_t file, int *fd) {
    return fd_of(it, file, REQUESTS_ROOM, fd);
}
