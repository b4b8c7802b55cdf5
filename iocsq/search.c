/* Searches through the driver's list by its CsqPeekNextIrp: each answer is compared with that of
 * the reference. */
#include "judge.h"
#include "queues.h"


enum { AUDITED = 64 };  /* a longer list is looked through only now and then */
enum { LOOKED_IN = 16 }; /* one in this many removals of a thread is looked ahead of */

static _Atomic bool has_own_peeks; /* iocsq called CsqPeekNextIrp where the framework doesn't */

void iocsq_show_own_peeks(void) {
    uint64_t left = iocsq_count_not_undone();
    if (has_own_peeks) {
        fprintf(stderr,
                "  iocsq itself called CsqPeekNextIrp too, where the framework does not. If a call "
                "of it does more than return an IRP, the driver's policy says PeekHasEffects.\n");
    }
    if (left > 0) {
        fprintf(stderr, "  %llu writes of such calls weren't undone, since there were too many.\n",
                (unsigned long long)left);
    }
}

/* The address sanitizer calls this as it reports. */
void __asan_on_error(void);
void __asan_on_error(void) {
    iocsq_show_own_peeks();
}

static bool matches(const struct iocsq_search *s, struct iocsq_irp *i) {
    if (s->q->policy.Match) {
        iocsq_own.hushed++;
        bool matches = s->q->policy.Match(&i->irp, s->context);
        iocsq_own.hushed--;
        return matches;
    }
    return s->context == NULL || s->context == (PVOID)iocsq_irp_file(i);
}

/* The first match after a slot, or with `unseen` the first that wasn't an answer yet. IOCSQ_NONE:
 * there is none. */
static uint32_t next_match(const struct iocsq_search *s, uint32_t after, bool unseen) {
    struct iocsq_reference *r = &s->q->reference;
    uint32_t slot = after;
    while ((slot = iocsq_reference_next(r, slot, CSQ_ANY)) != IOCSQ_NONE) {
        struct iocsq_irp *i = r->by_slot[slot];
        if (i && matches(s, i) && !(unseen && s->seen[slot])) {
            break;
        }
    }
    return slot;
}

/* The IRP from which the peek went on, as csq.h numbers it. */
static uint32_t start_of(const struct iocsq_search *s) {
    return s->before ? iocsq_slot_in(&s->q->reference, s->before) : CSQ_ANY;
}

/* The verdict where the peek context is "any" or a file object: the queue gives it. */
static struct iocsq_judgement judge_by_queue(const struct iocsq_search *s, uint32_t answer) {
    struct iocsq_judgement made = { CSQ_PEEK_SKIPS, IOCSQ_NONE };
    uint32_t start = start_of(s), file = s->context ? iocsq_file_number(s->context) : CSQ_ANY;
    if (s->before == NULL || start != CSQ_ANY) {
        made.verdict = iocsq_reference_judge(&s->q->reference, start, file, answer, &made.skipped);
    } /* else the last answer has gone meanwhile, and no match can be named */
    return made;
}

static bool stands_after(const struct iocsq_search *s, uint32_t slot) {
    struct iocsq_reference *r = &s->q->reference;
    uint32_t at = start_of(s);
    while ((at = iocsq_reference_next(r, at, CSQ_ANY)) != IOCSQ_NONE && at != slot) {
    }
    return at == slot;
}

/* The answer as a number: an IRP that isn't listed has no slot, and is none that could be
 * expected. */
static uint32_t answer_number(const struct iocsq_irp *answer, uint32_t slot) {
    return answer && slot == IOCSQ_NONE ? (uint32_t)IOCSQ_SLOTS : slot;
}

/* `slot` is the answer's in the reference, or IOCSQ_NONE. */
static struct iocsq_judgement judge(const struct iocsq_search *s, struct iocsq_irp *answer,
                                    uint32_t slot) {
    bool listed = slot != IOCSQ_NONE, any_order = s->q->policy.AnyOrder;
    struct iocsq_facts facts = { listed, listed && matches(s, answer), false };
    if (any_order) {
        facts.after = listed && !s->seen[slot];
        uint32_t left = answer ? IOCSQ_NONE : next_match(s, CSQ_ANY, true);
        return iocsq_judge_any_order(left, answer_number(answer, slot), facts);
    }
    if (!s->q->policy.Match) {
        return judge_by_queue(s, answer_number(answer, slot));
    }
    uint32_t expected = next_match(s, start_of(s), false);
    facts.after = listed && (slot == expected || stands_after(s, slot));
    return iocsq_judge(expected, answer_number(answer, slot), facts);
}

/* The report of a judgement that isn't Agrees. */
static void complain(const struct iocsq_search *s, const struct iocsq_irp *answer,
                     struct iocsq_judgement judgement) {
    const struct iocsq_irp *skipped =
        judgement.skipped == IOCSQ_NONE ? NULL : s->q->reference.by_slot[judgement.skipped];
    char given[32] = "none";
    iocsq_own.blamed = s->audits ? iocsq_own.callback : (uintptr_t)s->q->csq->CsqPeekNextIrp;
    if (answer) {
        snprintf(given, sizeof given, "irp %u", answer->index);
    }
    if (s->ahead && s->before) {
        iocsq_log(answer, "  CsqPeekNextIrp(after irp %u) = %s", s->before->index, given);
    }
    if (judgement.verdict == CSQ_PEEK_SKIPS && !skipped) {
        iocsq_disagree(answer, "%s: the list changes while this thread has its lock", s->when);
    }
    if (judgement.verdict != CSQ_PEEK_SKIPS && !answer) {
        iocsq_fail("%s: CsqPeekNextIrp answered none, which can only skip a match", s->when);
    }
    switch (judgement.verdict) {
    case CSQ_PEEK_SKIPS:
        iocsq_disagree(skipped, "%s: CsqPeekNextIrp answered %s, and skipped irp %u, a match",
                       s->when, given, skipped->index);
    case CSQ_PEEK_NOT_LISTED:
        iocsq_disagree(answer, "%s: CsqPeekNextIrp answered %s, which %s", s->when, given,
                       answer->place == IOCSQ_LISTED ? "is in another queue"
                                                     : iocsq_place_name(answer));
    case CSQ_PEEK_NO_MATCH:
        iocsq_disagree(answer,
                       "%s: CsqPeekNextIrp answered %s, which is no match of the peek context",
                       s->when, given);
    default:
        iocsq_disagree(answer, "%s: CsqPeekNextIrp answered %s, which %s irp %u", s->when, given,
                       s->q->policy.AnyOrder ? "came before in this search, after"
                                             : "does not stand after",
                       s->before ? s->before->index : answer->index);
    }
}

struct iocsq_irp *iocsq_peek(struct iocsq_search *s) {
    PIO_CSQ csq = s->q->csq;
    IOCSQ_COUNT(Peeks);
    iocsq_cover_call(s->q, IOCSQ_PEEK);
    PIRP irp = csq->CsqPeekNextIrp(csq, s->before ? &s->before->irp : NULL, s->context);
    struct iocsq_irp *answer = irp ? iocsq_known(irp, "CsqPeekNextIrp answered") : NULL;
    uint32_t slot = answer ? iocsq_slot_in(&s->q->reference, answer) : IOCSQ_NONE;
    struct iocsq_judgement judgement = judge(s, answer, slot);
    if (judgement.verdict != CSQ_PEEK_AGREES) {
        complain(s, answer, judgement);
    }
    if (answer) {
        iocsq_check_tail(answer, s->when);
        s->seen[slot] = true;
        s->before = answer;
    }
    return answer;
}

/* All write the same. */
IOCSQ_COMMUTES static void note_own_peek(void) {
    has_own_peeks = true;
}

/* All answers from the first on, which are judged. */
static void peek_to_the_last(struct iocsq_search *s) {
    struct iocsq_undo undo;
    note_own_peek();
    iocsq_begin_undo(&undo, __builtin_frame_address(0));
    iocsq_own.hushed++;
    while (iocsq_peek(s)) {
    }
    iocsq_own.hushed--;
    iocsq_end_undo(&undo);
}

void iocsq_audit(struct iocsq_queue *q, const char *when) {
    struct iocsq_search s = { .q = q, .when = when, .audits = true };
    if (q->policy.NoAudit || q->policy.PeekHasEffects ||
        (iocsq_reference_len(&q->reference) > AUDITED && !iocsq_rarely(16))) {
        return;
    }
    const char *hint = iocsq_own.hint;
    IOCSQ_COUNT(Audits);
    iocsq_own.asks_alone = !iocsq_has_null_contexts(q);
    if (iocsq_own.asks_alone) {
        iocsq_set_hint("  iocsq asked with null as peek context, which the driver never does: if "
                       "null doesn't mean any IRP to it, its policy says NoAudit.");
    }
    peek_to_the_last(&s);
    iocsq_own.asks_alone = false;
    iocsq_set_hint(hint);
}

/* With null as context the audit has looked as the lock was taken. Nothing is drawn here, so that a
 * seed's run is the same as without; in the bounded mode it would be a choice. */
static bool may_look_ahead(const struct iocsq_search *of) {
    const IOCSQ_POLICY *policy = &of->q->policy;
    bool may = !policy->PeekHasEffects && (of->context || policy->NoAudit);
    return may && (iocsq_is_bounded() || iocsq_own.removals++ % LOOKED_IN == 0);
}

/* The framework goes on only from an answer that is a canceller's, which seldom happens: so that a
 * peek which goes on wrongly is seen, all matches are looked at before. */
void iocsq_look_ahead(const struct iocsq_search *of) {
    if (!may_look_ahead(of)) {
        return;
    }
    struct iocsq_search s = *of;
    const char *hint = iocsq_own.hint;
    s.ahead = true;
    iocsq_set_hint("  iocsq peeks at all matches first, each time after the last answer, as the "
                   "framework does past an IRP that a canceller has.");
    peek_to_the_last(&s);
    iocsq_set_hint(hint);
}

/* Called by a signal's handler: the text is written first, as nothing else is safe there. */
void iocsq_ask_for_policy(void) {
    static const char text[] =
        "iocsq: the policy is missing: iocsq asked CsqPeekNextIrp with null as peek context, which "
        "the driver itself never does, and it used a bad address. If null doesn't mean any IRP to "
        "the driver, its policy says NoAudit.\n";
    if (iocsq_own.asks_alone) {
        iocsq_write_error(text);
        iocsq_show_last_calls();
        iocsq_exit(IOCSQ_NO_POLICY);
    }
}
