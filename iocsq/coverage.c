/* What a run covered: which callbacks ran, what cancels and cleanups met, how requests ended. A run
 * in which nothing was inserted, removed or cancelled says nothing of a driver's queue, so what
 * never happened is named. */
#include "queues.h"
#include "verdicts.h"

enum { KINDS = 32 };

/* The queues that have the same callbacks. */
struct iocsq_kind {
    IO_CSQ callbacks;
    _Atomic uint32_t begun; /* how often, but for those that were begun again before they were
                             * used; 0: there is no such kind */
    IOCSQ_POLICY policy;
    _Atomic ULONG64 calls[IOCSQ_CALLBACKS];
    _Atomic ULONG64 inserted, removed, cancelled;
    _Atomic bool null_contexts; /* the driver uses null as a peek context */
};
static struct iocsq_kind kinds[KINDS];
static _Atomic uint32_t kind_count; /* written under the queues' mutex until the driver is
                                     * unloaded, and read without it */
static _Atomic ULONG64 events[IOCSQ_EVENTS];

static const char *const event_names[IOCSQ_EVENTS] = {
    [IOCSQ_REFUSED] = "insert: refused by the driver",
    [IOCSQ_PUT_BACK] = "insert: of what was removed before",
    [IOCSQ_CANCEL_BEFORE] = "cancel: of an IRP that is in no queue",
    [IOCSQ_CANCEL_AT_INSERT] = "cancel: found by the insert",
    [IOCSQ_CANCEL_IN_QUEUE] = "cancel: of an IRP in a queue",
    [IOCSQ_CANCEL_BESIDE_REMOVAL] = "cancel: has an IRP that a removal comes to",
    [IOCSQ_CANCEL_AFTER_REMOVAL] = "cancel: of an IRP that was removed",
    [IOCSQ_CANCEL_AFTER_COMPLETION] = "cancel: of an IRP that was completed",
    [IOCSQ_CANCEL_BY_DRIVER] = "cancel: by a cancel routine of the driver",
    [IOCSQ_CLEANUP] = "cleanup",
    [IOCSQ_CLEANUP_BEFORE_INSERT] = "cleanup: an insert comes after it began",
    [IOCSQ_CLEANUP_BEFORE_REFUSAL] = "cleanup: an insert that comes after it began is refused",
    [IOCSQ_CLEANUP_OUTLIVED] = "cleanup: a request comes after it, and waits",
    [IOCSQ_HAND_SET] = "by hand: IoSetCancelRoutine sets a routine",
    [IOCSQ_HAND_TAKEN_BACK] = "by hand: IoSetCancelRoutine(Irp, NULL) returns it",
    [IOCSQ_HAND_GONE] = "by hand: it returns NULL, since a cancel has it",
    [IOCSQ_ENDED_WELL] = "completion: success",
    [IOCSQ_ENDED_CANCELLED] = "completion: cancelled",
    [IOCSQ_ENDED_BY_TIME] = "completion: timeout",
    [IOCSQ_ENDED_OTHERWISE] = "completion: another status",
};

bool iocsq_is_by_hand(void) {
    return kind_count == 0;
}

/* Without an IO_CSQ an insert, a removal and a cancel are what the driver does by hand. */
void iocsq_cover(enum iocsq_event event) {
    events[event]++;
    if (!iocsq_is_by_hand()) {
        return;
    }
    switch (event) {
    case IOCSQ_HAND_SET: IOCSQ_COUNT(Inserted); break;
    case IOCSQ_HAND_TAKEN_BACK: IOCSQ_COUNT(Removed); break;
    case IOCSQ_CANCEL_BY_DRIVER: IOCSQ_COUNT(Cancelled); break;
    default: break;
    }
}

void iocsq_cover_end(UCHAR major, NTSTATUS status) {
    if (major == IRP_MJ_CREATE || major == IRP_MJ_CLEANUP || major == IRP_MJ_CLOSE) {
        return;
    }
    bool by_time = status == STATUS_TIMEOUT || status == STATUS_IO_TIMEOUT;
    iocsq_cover(by_time                      ? IOCSQ_ENDED_BY_TIME
                : NT_SUCCESS(status)         ? IOCSQ_ENDED_WELL
                : status == STATUS_CANCELLED ? IOCSQ_ENDED_CANCELLED
                                             : IOCSQ_ENDED_OTHERWISE);
}

/* ---- Kinds ---- */
static bool is_of_kind(const struct iocsq_kind *k, const IO_CSQ *csq) {
    const IO_CSQ *c = &k->callbacks;
    return c->Type == csq->Type && c->CsqInsertIrp == csq->CsqInsertIrp &&
           c->CsqRemoveIrp == csq->CsqRemoveIrp && c->CsqPeekNextIrp == csq->CsqPeekNextIrp &&
           c->CsqAcquireLock == csq->CsqAcquireLock && c->CsqReleaseLock == csq->CsqReleaseLock &&
           c->CsqCompleteCanceledIrp == csq->CsqCompleteCanceledIrp;
}

static struct iocsq_kind *find_kind(const IO_CSQ *csq) {
    for (uint32_t at = 0; at < kind_count; at++) {
        if (is_of_kind(&kinds[at], csq)) {
            return &kinds[at];
        }
    }
    return NULL;
}

static struct iocsq_kind *new_kind(const IO_CSQ *csq) {
    if (kind_count == KINDS) {
        iocsq_fail("more than %u kinds of queues", (unsigned)KINDS);
    }
    kinds[kind_count].callbacks = *csq;
    return &kinds[kind_count++];
}

struct iocsq_kind *iocsq_kind_of(const IO_CSQ *csq) {
    struct iocsq_kind *k = find_kind(csq);
    if (!k) {
        k = new_kind(csq);
    }
    k->begun++;
    return k;
}

void iocsq_take_back_kind(struct iocsq_kind *k) {
    k->begun--;
}

void iocsq_set_policy_of_kind(struct iocsq_kind *k, const IOCSQ_POLICY *policy) {
    k->policy = *policy;
}

static uintptr_t address_of(const IO_CSQ *csq, enum iocsq_callback which) {
    switch (which) {
    case IOCSQ_INSERT: return (uintptr_t)csq->CsqInsertIrp;
    case IOCSQ_REMOVE: return (uintptr_t)csq->CsqRemoveIrp;
    case IOCSQ_ACQUIRE: return (uintptr_t)csq->CsqAcquireLock;
    case IOCSQ_RELEASE: return (uintptr_t)csq->CsqReleaseLock;
    case IOCSQ_COMPLETE: return (uintptr_t)csq->CsqCompleteCanceledIrp;
    default: return (uintptr_t)csq->CsqPeekNextIrp;
    }
}

/* All write the same. */
IOCSQ_COMMUTES static void note_use(struct iocsq_queue *q) {
    q->used = true;
}

void iocsq_cover_call(struct iocsq_queue *q, enum iocsq_callback which) {
    q->kind->calls[which]++;
    note_use(q);
    if (which != IOCSQ_PEEK) {
        iocsq_own.callback = address_of(&q->kind->callbacks, which);
    }
}

IOCSQ_COMMUTES void iocsq_note_null_context(struct iocsq_queue *q) {
    q->kind->null_contexts = true;
}

bool iocsq_has_null_contexts(const struct iocsq_queue *q) {
    return q->kind->null_contexts;
}

void iocsq_cover_insert(struct iocsq_queue *q) {
    q->kind->inserted++;
}

void iocsq_cover_removal(struct iocsq_queue *q) {
    q->kind->removed++;
}

void iocsq_cover_cancelled(struct iocsq_queue *q) {
    q->kind->cancelled++;
}

/* ---- The table ---- */
static const char *callback_name(const struct iocsq_kind *k, uint32_t which) {
    static const char *const names[IOCSQ_CALLBACKS] = {
        "CsqInsertIrp",   "CsqRemoveIrp",   "CsqPeekNextIrp",
        "CsqAcquireLock", "CsqReleaseLock", "CsqCompleteCanceledIrp"
    };
    return which == IOCSQ_INSERT && k->callbacks.Type == IO_TYPE_CSQ_EX ? "CsqInsertIrpEx"
                                                                        : names[which];
}

/* How many kinds there are up to this one, from 1 on. */
static uint32_t number_of_kind(const struct iocsq_kind *k) {
    uint32_t number = 0;
    for (const struct iocsq_kind *each = kinds; each <= k; each++) {
        number += each->begun > 0;
    }
    return number;
}

static bool are_several_kinds(void) {
    return kind_count > 0 && number_of_kind(&kinds[kind_count - 1]) > 1;
}

/* Behind the name of what is of one kind, if there are more. */
static const char *kind_name(const struct iocsq_kind *k) {
    static char name[32];
    name[0] = '\0';
    if (are_several_kinds()) {
        snprintf(name, sizeof name, " (queues of kind %u)", number_of_kind(k));
    }
    return name;
}

static void print_row(const char *name, const char *of, ULONG64 count) {
    printf("  %-*s%s %10llu\n", 56 - (int)strlen(of), name, of, (unsigned long long)count);
}

/* What can't happen without an IO_CSQ, and what can't with one. */
static bool is_of_queues(uint32_t event) {
    return event == IOCSQ_REFUSED || event == IOCSQ_PUT_BACK ||
           (event >= IOCSQ_CANCEL_AT_INSERT && event <= IOCSQ_CANCEL_AFTER_REMOVAL) ||
           event == IOCSQ_CLEANUP_BEFORE_INSERT || event == IOCSQ_CLEANUP_BEFORE_REFUSAL;
}

static bool is_of_hand(uint32_t event) {
    return event >= IOCSQ_CLEANUP_OUTLIVED && event <= IOCSQ_HAND_GONE;
}

static bool has_row(uint32_t event) {
    if (is_of_hand(event)) {
        return iocsq_is_by_hand() || events[IOCSQ_HAND_SET] > 0;
    }
    return !is_of_queues(event) || !iocsq_is_by_hand();
}

static void print_schedules(void) {
    struct iocsq_schedules_noted noted = iocsq_schedules_noted();
    if (noted.irps + noted.left_out > 0) {
        print_row("by hand: IRPs whose steps are a schedule", "", noted.irps);
        print_row("by hand: schedules, each replayed",
                  iocsq_is_judge_proved() ? " (proved)" : " (not proved)", noted.different);
        print_row("by hand: IRPs whose steps are none", "", noted.left_out);
    }
}

/* A run without it says nothing. */
static void print_not_undone(void) {
    uint64_t left = iocsq_count_not_undone();
    if (left > 0) {
        print_row("peek: writes in iocsq's own that weren't undone", "", left);
    }
}

static void print_callbacks(const struct iocsq_kind *k) {
    for (uint32_t which = 0; which < IOCSQ_CALLBACKS && k->begun > 0; which++) {
        print_row(callback_name(k, which), kind_name(k), k->calls[which]);
    }
}

static void print_table(void) {
    printf("What happened, and how often:\n");
    for (uint32_t at = 0; at < kind_count; at++) {
        print_callbacks(&kinds[at]);
    }
    for (uint32_t at = 0; at < IOCSQ_EVENTS; at++) {
        if (has_row(at)) {
            print_row(event_names[at], "", events[at]);
        }
    }
    print_not_undone();
    print_schedules();
}

/* ---- What never happened ---- */
static FILE *complaints; /* where it is named; null: nowhere */

static bool complain(const struct iocsq_kind *k, const char *what, const char *hint) {
    if (complaints) {
        fprintf(complaints, "iocsq: %s%s: %s\n", what, k ? kind_name(k) : "", hint);
    }
    return false;
}

static bool needs_call(const IOCSQ_POLICY *policy, uint32_t which) {
    switch (which) {
    case IOCSQ_PEEK: return !policy->NeverPeeks;
    case IOCSQ_REMOVE: return !policy->NeverRemoves || !policy->NeverCancelled;
    case IOCSQ_COMPLETE: return !policy->NeverCancelled;
    default: return true;
    }
}

static bool all_ran(const struct iocsq_kind *k) {
    bool all = true;
    for (uint32_t which = 0; which < IOCSQ_CALLBACKS; which++) {
        if (k->calls[which] == 0 && needs_call(&k->policy, which)) {
            char what[64];
            snprintf(what, sizeof what, "%s never ran", callback_name(k, which));
            all = complain(k, what, "this run says nothing of it");
        }
    }
    return all;
}

static bool kind_was_tested(const struct iocsq_kind *k) {
    const IOCSQ_POLICY *policy = &k->policy;
    bool all = true;
    if (policy->NeverInserts || k->begun == 0) {
        return true;
    }
    if (k->inserted == 0) {
        return complain(k, "nothing was inserted",
                        "no request reached the queue (do the driver's control codes stand in "
                        "DriverControls?)");
    }
    if (k->removed == 0 && !policy->NeverRemoves) {
        all = complain(k, "nothing was removed",
                       "if the driver never removes an IRP, its policy says NeverRemoves");
    }
    if (k->cancelled == 0 && !policy->NeverCancelled) {
        all = complain(
            k, "nothing was cancelled",
            "if no IRP stays in the queue for long enough, its policy says NeverCancelled");
    }
    return all_ran(k) && all;
}

/* A driver without an IO_CSQ: what its own cancel routines did. */
static bool hand_was_tested(void) {
    IOCSQ_POLICY policy = iocsq_first_policy();
    bool all = true;
    if (policy.NeverInserts) {
        return true;
    }
    if (events[IOCSQ_HAND_SET] == 0) {
        return complain(NULL, "no queue was initialized, and no cancel routine was set",
                        "the driver called neither IoCsqInitialize nor IoSetCancelRoutine (do its "
                        "control codes stand in DriverControls?)");
    }
    if (events[IOCSQ_HAND_TAKEN_BACK] == 0 && !policy.NeverRemoves) {
        all = complain(NULL, "no cancel routine was taken back",
                       "IoSetCancelRoutine(Irp, NULL) never returned one; if the driver never does "
                       "so, its policy says NeverRemoves");
    }
    if (events[IOCSQ_CANCEL_BY_DRIVER] == 0 && !policy.NeverCancelled) {
        all = complain(NULL, "no cancel routine ran",
                       "if no IRP waits for long enough, the policy says NeverCancelled");
    }
    return all;
}

/* The same, and which kind it is that wasn't. */
static bool is_tested(const struct iocsq_kind *k) {
    bool tested = kind_was_tested(k);
    if (!tested && complaints && are_several_kinds()) {
        char how[64];
        snprintf(how, sizeof how, "The queues of kind %u have their %s at", number_of_kind(k),
                 callback_name(k, IOCSQ_INSERT));
        iocsq_show_function(how, address_of(&k->callbacks, IOCSQ_INSERT));
    }
    return tested;
}

static bool all_happened(FILE *names_to) {
    bool all = true;
    complaints = names_to;
    if (iocsq_is_by_hand()) {
        return hand_was_tested();
    }
    for (uint32_t at = 0; at < kind_count; at++) {
        all = is_tested(&kinds[at]) && all;
    }
    return all;
}

bool iocsq_is_covered(void) {
    return all_happened(NULL);
}

BOOLEAN IocsqCoverage(VOID) {
    print_table();
    fflush(stdout);
    return all_happened(stderr);
}
