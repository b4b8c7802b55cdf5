/* A plain C queue of the same design as the proved one, and of the same header, but unproved: to
 * time that one against, and to run the tests on. Each IRP has three atomic words, each with the
 * life that it is of: the Cancel flag, the cancel routine and the status. */
#include "plain_list.h"

#include <stdatomic.h>
#include <stdlib.h>

typedef _Atomic uint64_t word;

/* Which of an IRP's three words. */
enum { FLAG, ROUTINE, STATUS, WORDS };

/* A status word: the life, whether the status is set, and the status in 32 bits. */
#define STATUS_SET ((uint64_t)1 << 32)
#define STATUS_LIFE 33

struct queue {
    struct plain_list list;
    word *words;
    uint32_t *lives;
    uint32_t irps;
    uint32_t passes;
    uint32_t handed_out;
    uint32_t out;
    /* The passes that came back, the latest first. */
    struct pass *idle;
    bool closed;
};

/* How a pass has an IRP, and in which life; of one that it removed, for which file object it was
 * inserted. */
enum { NOT_HERE, OWED, REMOVED, GOT_CANCELLED };
struct slot {
    uint32_t life;
    uint32_t has;
    uint32_t file;
};

struct pass {
    struct pass *next_idle;
    word *words;
    struct slot *slots;
    uint32_t irps;
    uint32_t held;
    uint32_t owed;
};

static word *word_of(word *words, uint32_t irp, uint32_t which) {
    return &words[WORDS * irp + which];
}

static uint64_t clear(uint32_t life) {
    return 2 * (uint64_t)life;
}

static uint64_t unset(uint32_t life) {
    return (uint64_t)life << STATUS_LIFE;
}

/* What is in the handle of a call that changes something. It is written too, so that the thread
 * sanitizer reports a call without the lock, whatever the call changes behind the handle. */
static void *taken(void *volatile *handle) {
    void *at = *handle;
    *handle = at;
    return at;
}
static struct queue *queue_in(struct csq_queue *queue) {
    return taken((void *volatile *)&queue->at);
}
static struct pass *pass_in(struct csq_pass *pass) {
    return taken((void *volatile *)&pass->at);
}

/* ---- A queue's beginning and end ---- */

static bool is_size(const struct csq_size *size) {
    return plain_list_is_size(size) && 1 <= size->passes && size->passes <= CSQ_MOST_PASSES;
}

static void free_pass(struct pass *by) {
    free(by->slots);
    free(by);
}

static void free_queue(struct queue *made) {
    while (made->idle) {
        struct pass *by = made->idle;
        made->idle = by->next_idle;
        free_pass(by);
    }
    plain_list_free(&made->list);
    free(made->words);
    free(made->lives);
    free(made);
}

static void begin_lives(struct queue *made, uint32_t first) {
    for (uint32_t irp = 0; irp < made->irps; irp++) {
        made->lives[irp] = first;
        atomic_init(word_of(made->words, irp, FLAG), clear(first));
        atomic_init(word_of(made->words, irp, ROUTINE), clear(first));
        atomic_init(word_of(made->words, irp, STATUS), unset(first));
    }
}

static uint32_t make(struct csq_queue *queue, const struct csq_size *size,
                     const uint32_t *file_limits) {
    struct queue *made = calloc(1, sizeof *made);
    if (!made) {
        return CSQ_NO_MEMORY;
    }
    made->irps = size->irps;
    made->passes = size->passes;
    made->words = malloc(WORDS * size->irps * sizeof *made->words);
    made->lives = malloc(size->irps * sizeof *made->lives);
    if (!made->words || !made->lives || !plain_list_new(&made->list, size, file_limits)) {
        free_queue(made);
        return CSQ_NO_MEMORY;
    }
    begin_lives(made, size->first_life);
    queue->at = made;
    return CSQ_OK;
}

uint32_t csq_new_queue(struct csq_queue *queue, const struct csq_size *size) {
    if (queue->at) {
        return CSQ_NOT_EMPTY;
    }
    return is_size(size) ? make(queue, size, NULL) : CSQ_BAD_SIZE;
}

uint32_t csq_new_queue_with_file_limits(struct csq_queue *queue, const struct csq_size *size,
                                        const uint32_t *file_limits, size_t count) {
    if (queue->at) {
        return CSQ_NOT_EMPTY;
    }
    return is_size(size) && plain_list_are_limits(size, file_limits, count)
               ? make(queue, size, file_limits)
               : CSQ_BAD_SIZE;
}

uint32_t csq_version(void) {
    return CSQ_VERSION_NUMBER;
}

uint32_t csq_free_queue(struct csq_queue *queue) {
    struct queue *at = queue_in(queue);
    if (!at) {
        return CSQ_OK;
    }
    if (at->out > 0) {
        return CSQ_PASSES_OUT;
    }
    free_queue(at);
    queue->at = NULL;
    return CSQ_OK;
}

static uint32_t open_queue(const struct queue *at) {
    if (!at) {
        return CSQ_EMPTY_HANDLE;
    }
    return at->closed ? CSQ_CLOSED : CSQ_OK;
}

uint32_t csq_count_passes_out(const struct csq_queue *queue, uint32_t *out) {
    const struct queue *at = queue->at;
    uint32_t code = open_queue(at);
    if (code != CSQ_OK) {
        return code;
    }
    *out = at->out;
    return CSQ_OK;
}

uint32_t csq_close(struct csq_queue *queue) {
    struct queue *at = queue_in(queue);
    uint32_t code = open_queue(at);
    if (code != CSQ_OK) {
        return code;
    }
    if (at->out > 0) {
        return CSQ_PASSES_OUT;
    }
    at->closed = true;
    return CSQ_OK;
}

static uint32_t closed_queue(const struct queue *at) {
    if (!at) {
        return CSQ_EMPTY_HANDLE;
    }
    return at->closed ? CSQ_OK : CSQ_NOT_CLOSED;
}

/* The listed IRP that follows this one for a file object, or for any. */
static uint32_t next_listed(const struct queue *at, uint32_t after, uint32_t file, uint32_t *irp) {
    if (after != CSQ_ANY && !plain_list_has(&at->list, after)) {
        return CSQ_NOT_LISTED;
    }
    *irp = plain_list_next(&at->list, after, file);
    return *irp == NOBODY ? CSQ_NONE : CSQ_OK;
}

uint32_t csq_read_listed(const struct csq_queue *queue, uint32_t after, uint32_t *irp) {
    const struct queue *at = queue->at;
    uint32_t next = NOBODY, code = closed_queue(at);
    if (code == CSQ_OK) {
        code = next_listed(at, after, CSQ_ANY, &next);
    }
    if (code == CSQ_OK) {
        *irp = next;
    }
    return code;
}

uint32_t csq_read_left(const struct csq_queue *queue, uint32_t irp, struct csq_left *left) {
    const struct queue *at = queue->at;
    uint32_t code = closed_queue(at);
    if (code != CSQ_OK) {
        return code;
    }
    if (irp >= at->irps) {
        return CSQ_UNKNOWN_IRP;
    }
    uint64_t flag = atomic_load(word_of(at->words, irp, FLAG)),
             status = atomic_load(word_of(at->words, irp, STATUS));
    *left =
        (struct csq_left){ at->lives[irp], flag % 2, (status & STATUS_SET) != 0, (uint32_t)status };
    return CSQ_OK;
}

/* ---- Passes ---- */

/* A new pass, which counts as handed out. NULL for want of memory. */
static struct pass *new_pass(struct queue *at) {
    struct pass *made = malloc(sizeof *made);
    struct slot *slots = calloc(at->irps, sizeof *slots);
    if (!made || !slots) {
        free(made);
        free(slots);
        return NULL;
    }
    *made = (struct pass){ .words = at->words, .slots = slots, .irps = at->irps };
    at->handed_out++;
    return made;
}

uint32_t csq_take_pass(struct csq_queue *queue, struct csq_pass *pass) {
    struct queue *at = queue_in(queue);
    if (!at || queue->number == 0) {
        return CSQ_EMPTY_HANDLE;
    }
    if (pass->at) {
        return CSQ_NOT_EMPTY;
    }
    if (at->closed) {
        return CSQ_CLOSED;
    }
    struct pass *by = at->idle;
    if (by) {
        at->idle = by->next_idle;
    } else if (at->handed_out == at->passes) {
        return CSQ_NO_PASS;
    } else if (!(by = new_pass(at))) {
        return CSQ_NO_MEMORY;
    }
    at->out++;
    pass->at = by;
    pass->queue = queue->number;
    return CSQ_OK;
}

static uint32_t is_spent(const struct pass *by) {
    return by->held > 0 || by->owed > 0 ? CSQ_HOLDING : CSQ_OK;
}

uint32_t csq_abandon_pass(struct csq_pass *pass) {
    struct pass *by = pass_in(pass);
    if (!by) {
        return CSQ_EMPTY_HANDLE;
    }
    uint32_t code = is_spent(by);
    if (code == CSQ_OK) {
        free_pass(by);
        pass->at = NULL;
    }
    return code;
}

/* Whether both handles are filled, and the pass is this queue's, which is open then. As in the
 * proved library by the numbers in the handles alone, so that a program that leaves them out fails
 * here too. */
static uint32_t may_call(struct csq_queue *queue, struct csq_pass *pass) {
    if (!queue->at || !pass_in(pass)) {
        return CSQ_EMPTY_HANDLE;
    }
    return pass->queue == queue->number ? CSQ_OK : CSQ_OTHER_QUEUE;
}

uint32_t csq_give_back(struct csq_queue *queue, struct csq_pass *pass) {
    struct queue *at = queue_in(queue);
    struct pass *by = pass->at;
    uint32_t code = may_call(queue, pass);
    if (code == CSQ_OK) {
        code = is_spent(by);
    }
    if (code == CSQ_OK) {
        by->next_idle = at->idle;
        at->idle = by;
        at->out--;
        pass->at = NULL;
    }
    return code;
}

uint32_t csq_count_held(const struct csq_pass *pass, uint32_t *held, uint32_t *owed) {
    const struct pass *by = pass->at;
    if (!by) {
        return CSQ_EMPTY_HANDLE;
    }
    *held = by->held;
    *owed = by->owed;
    return CSQ_OK;
}

/* ---- What a pass holds ---- */

static uint32_t knows(struct csq_pass *pass, uint32_t irp) {
    const struct pass *by = pass_in(pass);
    if (!by) {
        return CSQ_EMPTY_HANDLE;
    }
    return irp < by->irps ? CSQ_OK : CSQ_UNKNOWN_IRP;
}

static uint32_t holds(struct csq_pass *pass, struct csq_irp irp) {
    const struct pass *by = pass_in(pass);
    uint32_t code = knows(pass, irp.irp);
    if (code != CSQ_OK) {
        return code;
    }
    struct slot slot = by->slots[irp.irp];
    return (slot.has == REMOVED || slot.has == GOT_CANCELLED) && slot.life == irp.life
               ? CSQ_OK
               : CSQ_NOT_HELD;
}

/* Whether it got the IRP by a removal. */
static uint32_t holds_removed(struct csq_pass *pass, struct csq_irp irp) {
    const struct pass *by = pass_in(pass);
    uint32_t code = holds(pass, irp);
    if (code != CSQ_OK) {
        return code;
    }
    return by->slots[irp.irp].has == REMOVED ? CSQ_OK : CSQ_NOT_REMOVED;
}

static void hold(struct pass *by, uint32_t irp, struct slot slot) {
    by->slots[irp] = slot;
    by->held++;
}

static void let_go(struct pass *by, uint32_t irp) {
    by->slots[irp].has = NOT_HERE;
    by->held--;
}

/* ---- Under the lock ---- */

/* Exchanges the routine of an IRP for none, and answers whether it was there. */
static bool disarm(struct queue *at, uint32_t irp) {
    return atomic_exchange(word_of(at->words, irp, ROUTINE), clear(at->lives[irp])) % 2;
}

/* Lists an IRP and sets its routine. If it was cancelled before, the pass holds it. */
static uint32_t list_irp(struct queue *at, struct pass *by, uint32_t irp, uint32_t file,
                         uint32_t front, struct csq_irp *context) {
    uint32_t life = at->lives[irp], code = CSQ_OK;
    plain_list_insert(&at->list, irp, file, front != 0);
    atomic_exchange(word_of(at->words, irp, ROUTINE), clear(life) + 1);
    if (atomic_load(word_of(at->words, irp, FLAG)) % 2 && disarm(at, irp)) {
        plain_list_remove(&at->list, irp);
        hold(by, irp, (struct slot){ life, GOT_CANCELLED, NOBODY });
        code = CSQ_CANCELLED;
    }
    *context = (struct csq_irp){ irp, life };
    return code;
}

uint32_t csq_insert(struct csq_queue *queue, struct csq_pass *pass, uint32_t irp, uint32_t file,
                    uint32_t front, struct csq_irp *context) {
    struct queue *at = queue_in(queue);
    uint32_t code = may_call(queue, pass);
    if (code == CSQ_OK) {
        code = plain_list_refusal(&at->list, irp, file);
    }
    return code == CSQ_OK ? list_irp(at, pass->at, irp, file, front, context) : code;
}

uint32_t csq_put_back(struct csq_queue *queue, struct csq_pass *pass, struct csq_irp irp,
                      uint32_t front, struct csq_irp *context) {
    struct queue *at = queue_in(queue);
    struct pass *by = pass_in(pass);
    uint32_t file = NOBODY, code = may_call(queue, pass);
    if (code == CSQ_OK) {
        code = holds_removed(pass, irp);
    }
    if (code == CSQ_OK) {
        file = by->slots[irp.irp].file;
        code = plain_list_no_room(&at->list, file);
    }
    if (code != CSQ_OK) {
        return code;
    }
    let_go(by, irp.irp);
    return list_irp(at, by, irp.irp, file, front, context);
}

static void take_removed(struct queue *at, struct pass *by, uint32_t irp) {
    uint32_t file = at->list.file_of[irp];
    plain_list_remove(&at->list, irp);
    hold(by, irp, (struct slot){ at->lives[irp], REMOVED, file });
}

uint32_t csq_remove_next(struct csq_queue *queue, struct csq_pass *pass, uint32_t file,
                         struct csq_irp *irp) {
    struct queue *at = queue_in(queue);
    uint32_t code = may_call(queue, pass);
    if (code != CSQ_OK) {
        return code;
    }
    uint32_t next = plain_list_next(&at->list, NOBODY, file);
    while (next != NOBODY && !disarm(at, next)) {
        next = plain_list_next(&at->list, next, file);
    }
    if (next == NOBODY) {
        return CSQ_NONE;
    }
    take_removed(at, pass->at, next);
    *irp = (struct csq_irp){ next, at->lives[next] };
    return CSQ_OK;
}

uint32_t csq_remove(struct csq_queue *queue, struct csq_pass *pass, struct csq_irp irp) {
    struct queue *at = queue_in(queue);
    uint32_t code = may_call(queue, pass);
    if (code != CSQ_OK) {
        return code;
    }
    if (!plain_list_has(&at->list, irp.irp) || at->lives[irp.irp] != irp.life ||
        !disarm(at, irp.irp)) {
        return CSQ_NONE;
    }
    take_removed(at, pass->at, irp.irp);
    return CSQ_OK;
}

uint32_t csq_cancel_routine(struct csq_queue *queue, struct csq_pass *pass, struct csq_irp irp) {
    struct queue *at = queue_in(queue);
    struct pass *by = pass_in(pass);
    uint32_t code = may_call(queue, pass);
    if (code != CSQ_OK) {
        return code;
    }
    if (irp.irp >= by->irps) {
        return CSQ_UNKNOWN_IRP;
    }
    if (by->slots[irp.irp].has != OWED || by->slots[irp.irp].life != irp.life) {
        return CSQ_NOT_OWED;
    }
    plain_list_remove(&at->list, irp.irp);
    by->owed--;
    hold(by, irp.irp, (struct slot){ irp.life, GOT_CANCELLED, NOBODY });
    return CSQ_OK;
}

uint32_t csq_cancel_owed(struct csq_queue *queue, struct csq_pass *pass, struct csq_irp irp) {
    uint32_t code = csq_cancel_routine(queue, pass, irp);
    return code == CSQ_OK ? csq_complete_cancelled(pass, irp) : code;
}

uint32_t csq_close_file(struct csq_queue *queue, struct csq_pass *pass, uint32_t file) {
    struct queue *at = queue_in(queue);
    uint32_t code = may_call(queue, pass);
    if (code != CSQ_OK) {
        return code;
    }
    if (file >= at->list.files) {
        return CSQ_UNKNOWN_FILE;
    }
    at->list.closed[file] = true;
    return CSQ_OK;
}

/* Begins the next life of an IRP in its words. The flag comes last: with it the next life
 * begins. */
static void renew(struct queue *at, uint32_t irp, uint32_t next) {
    atomic_exchange(word_of(at->words, irp, STATUS), unset(next));
    atomic_exchange(word_of(at->words, irp, FLAG), clear(next));
    at->list.used[irp] = false;
    at->lives[irp] = next;
}

uint32_t csq_reuse(struct csq_queue *queue, struct csq_pass *pass, struct csq_irp irp,
                   uint32_t *life) {
    struct queue *at = queue_in(queue);
    uint32_t code = may_call(queue, pass);
    if (code != CSQ_OK) {
        return code;
    }
    if (irp.irp >= at->irps) {
        return CSQ_UNKNOWN_IRP;
    }
    if (irp.life != at->lives[irp.irp]) {
        return CSQ_STALE;
    }
    if (!(atomic_load(word_of(at->words, irp.irp, STATUS)) & STATUS_SET)) {
        return CSQ_NOT_COMPLETED;
    }
    if (irp.life == CSQ_LAST_LIFE) {
        return CSQ_LIVES_SPENT;
    }
    renew(at, irp.irp, irp.life + 1);
    *life = irp.life + 1;
    return CSQ_OK;
}

/* ---- Looks at an open queue ---- */

uint32_t csq_peek_next(const struct csq_queue *queue, uint32_t after, uint32_t file,
                       struct csq_irp *irp) {
    const struct queue *at = queue->at;
    uint32_t next = NOBODY, code = open_queue(at);
    if (code == CSQ_OK) {
        code = next_listed(at, after, file, &next);
    }
    if (code == CSQ_OK) {
        *irp = (struct csq_irp){ next, at->lives[next] };
    }
    return code;
}

uint32_t csq_len(const struct csq_queue *queue, uint32_t *len) {
    const struct queue *at = queue->at;
    uint32_t code = open_queue(at);
    if (code == CSQ_OK) {
        *len = at->list.length;
    }
    return code;
}

uint32_t csq_file_len(const struct csq_queue *queue, uint32_t file, uint32_t *len) {
    const struct queue *at = queue->at;
    uint32_t code = open_queue(at);
    if (code != CSQ_OK) {
        return code;
    }
    if (file >= at->list.files) {
        return CSQ_UNKNOWN_FILE;
    }
    *len = at->list.file_lengths[file];
    return CSQ_OK;
}

/* ---- Without the lock ---- */

uint32_t csq_mark_cancel(struct csq_pass *pass, struct csq_irp irp, uint32_t *found) {
    struct pass *by = pass_in(pass);
    uint32_t code = knows(pass, irp.irp);
    if (code != CSQ_OK) {
        return code;
    }
    uint64_t none = clear(irp.life), flag = none, routine = none + 1;
    bool set = atomic_compare_exchange_strong(word_of(by->words, irp.irp, FLAG), &flag, none + 1);
    if (!set && flag / 2 != irp.life) {
        return CSQ_STALE;
    }
    *found = atomic_compare_exchange_strong(word_of(by->words, irp.irp, ROUTINE), &routine, none);
    if (*found) {
        by->slots[irp.irp] = (struct slot){ irp.life, OWED, NOBODY };
        by->owed++;
    }
    return CSQ_OK;
}

static void set_status(struct pass *by, uint32_t irp, uint32_t status) {
    atomic_exchange(word_of(by->words, irp, STATUS),
                    unset(by->slots[irp].life) + STATUS_SET + status);
    let_go(by, irp);
}

uint32_t csq_complete(struct csq_pass *pass, struct csq_irp irp, uint32_t status) {
    uint32_t code = holds_removed(pass, irp);
    if (code != CSQ_OK) {
        return code;
    }
    if (status == CSQ_STATUS_PENDING) {
        return CSQ_NOT_FINAL;
    }
    set_status(pass->at, irp.irp, status);
    return CSQ_OK;
}

uint32_t csq_complete_cancelled(struct csq_pass *pass, struct csq_irp irp) {
    uint32_t code = holds(pass, irp);
    if (code == CSQ_OK) {
        set_status(pass->at, irp.irp, CSQ_STATUS_CANCELLED);
    }
    return code;
}

uint32_t csq_read_cancel(struct csq_pass *pass, uint32_t irp, uint32_t *life, uint32_t *cancelled) {
    const struct pass *by = pass_in(pass);
    uint32_t code = knows(pass, irp);
    if (code != CSQ_OK) {
        return code;
    }
    uint64_t found = atomic_load(word_of(by->words, irp, FLAG));
    *life = (uint32_t)(found / 2);
    *cancelled = found % 2;
    return CSQ_OK;
}

uint32_t csq_read_status(struct csq_pass *pass, uint32_t irp, uint32_t *life, uint32_t *status) {
    const struct pass *by = pass_in(pass);
    uint32_t code = knows(pass, irp);
    if (code != CSQ_OK) {
        return code;
    }
    uint64_t found = atomic_load(word_of(by->words, irp, STATUS));
    *life = (uint32_t)(found >> STATUS_LIFE);
    if (!(found & STATUS_SET)) {
        return CSQ_NONE;
    }
    *status = (uint32_t)found;
    return CSQ_OK;
}
