/* The judges of csq.h for the plain C queue, made of its other calls. */
#include "plain_list.h"

/* The first match after a listed IRP, or from the first on for CSQ_ANY. CSQ_ANY: there is none. */
static uint32_t next_match(const struct csq_queue *queue, uint32_t after, uint32_t file) {
    struct csq_irp next = { CSQ_ANY, 0 };
    return csq_peek_next(queue, after, file, &next) == CSQ_OK ? next.irp : CSQ_ANY;
}

static bool is_listed(const struct csq_queue *queue, uint32_t irp) {
    struct csq_irp next;
    return irp != CSQ_ANY && csq_peek_next(queue, irp, CSQ_ANY, &next) != CSQ_NOT_LISTED;
}

/* Whether an IRP is among the matches after another one, or from the first on. */
static bool stands_after(const struct csq_queue *queue, uint32_t after, uint32_t file,
                         uint32_t irp) {
    uint32_t next = next_match(queue, after, file);
    while (next != CSQ_ANY && next != irp) {
        next = next_match(queue, next, file);
    }
    return next != CSQ_ANY;
}

/* The verdict of an answer, where this is the first match after the start, or CSQ_ANY. */
static uint32_t judge(const struct csq_queue *queue, uint32_t first, uint32_t file,
                      uint32_t answer) {
    if (answer == first) {
        return CSQ_PEEK_AGREES;
    }
    if (first != CSQ_ANY && (answer == CSQ_ANY || stands_after(queue, first, file, answer))) {
        return CSQ_PEEK_SKIPS;
    }
    if (stands_after(queue, CSQ_ANY, file, answer)) {
        return CSQ_PEEK_BACKWARDS;
    }
    return is_listed(queue, answer) ? CSQ_PEEK_NO_MATCH : CSQ_PEEK_NOT_LISTED;
}

uint32_t csq_judge_peek(const struct csq_queue *queue, uint32_t after, uint32_t file,
                        uint32_t answer, uint32_t *verdict, uint32_t *skipped) {
    struct csq_irp first = { CSQ_ANY, 0 };
    uint32_t code = csq_peek_next(queue, after, file, &first);
    if (code != CSQ_OK && code != CSQ_NONE) {
        return code;
    }
    *verdict = judge(queue, first.irp, file, answer);
    if (*verdict == CSQ_PEEK_SKIPS) {
        *skipped = first.irp;
    }
    return CSQ_OK;
}

static bool is_among(const uint32_t *irps, size_t count, uint32_t irp) {
    for (size_t at = 0; at < count; at++) {
        if (irps[at] == irp) {
            return true;
        }
    }
    return false;
}

uint32_t csq_judge_cleanup(const struct csq_queue *queue, uint32_t file, const uint32_t *excused,
                           size_t count, uint32_t *left) {
    uint32_t len, next = CSQ_ANY, code = csq_file_len(queue, file, &len);
    if (code != CSQ_OK) {
        return code;
    }
    do {
        next = next_match(queue, next, file);
    } while (next != CSQ_ANY && is_among(excused, count, next));
    *left = next;
    return CSQ_OK;
}

uint32_t csq_judge_remove(struct csq_queue *queue, struct csq_pass *pass, struct csq_irp irp,
                          uint32_t *verdict) {
    bool listed = is_listed(queue, irp.irp);
    uint32_t code = csq_remove(queue, pass, irp);
    if (code == CSQ_OK) {
        *verdict = CSQ_REMOVE_AGREES;
    } else if (code == CSQ_NONE) {
        *verdict = listed ? CSQ_REMOVE_CLAIMED : CSQ_REMOVE_NOT_LISTED;
        code = CSQ_OK;
    }
    return code;
}

static uint32_t use_verdict(const struct csq_queue *queue, uint32_t irp, uint32_t code) {
    switch (code) {
    case CSQ_OK: return CSQ_USE_AGREES;
    case CSQ_NOT_REMOVED: return CSQ_USE_GOT_CANCELLED;
    case CSQ_NOT_FINAL: return CSQ_USE_NOT_FINAL;
    default: return is_listed(queue, irp) ? CSQ_USE_LISTED : CSQ_USE_NOT_HELD;
    }
}

uint32_t csq_judge_complete(struct csq_queue *queue, struct csq_pass *pass, struct csq_irp irp,
                            uint32_t status, uint32_t *verdict) {
    if (!queue->at || !pass->at) {
        return CSQ_EMPTY_HANDLE;
    }
    if (pass->queue != queue->number) {
        return CSQ_OTHER_QUEUE;
    }
    *verdict = use_verdict(queue, irp.irp,
                           status == CSQ_STATUS_CANCELLED ? csq_complete_cancelled(pass, irp)
                                                          : csq_complete(pass, irp, status));
    return CSQ_OK;
}

uint32_t csq_judge_insert(struct csq_queue *queue, struct csq_pass *pass, struct csq_irp irp,
                          uint32_t *verdict) {
    return csq_judge_complete(queue, pass, irp, CSQ_STATUS_SUCCESS, verdict);
}
