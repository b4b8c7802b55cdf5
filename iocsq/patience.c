/* Requests that wait for ever. A cancel or a cleanup ends any request of a queue, so a wake-up that
 * was lost is seen only if neither comes: each request has to end in its time, unless the policy
 * says that it may wait. One that was cancelled never may. */
#include "queues.h"

/* BETWEEN: microseconds, no timer's period. */
enum { MILLISECOND = 1000000, USUAL = 2000, LOOKS = 5, BETWEEN = 370 };

BOOLEAN IocsqNoneWaits(PIRP Irp) {
    UNREFERENCED_PARAMETER(Irp);
    return FALSE;
}

/* In the bounded mode the time in which a request is to end begins only as its end is expected:
 * otherwise each request would have to look at the clock as it is sent. */
void iocsq_note_sent(struct iocsq_irp *i) {
    if (!iocsq_is_bounded()) {
        i->sent = iocsq_now();
    }
}

/* The rest of the time in which a request is to end, in milliseconds. */
static ULONG rest_of(const struct iocsq_irp *i, ULONG within) {
    uint64_t passed = iocsq_is_bounded() ? 0 : (iocsq_now() - i->sent) / MILLISECOND;
    return passed < within ? (ULONG)(within - passed) : 1;
}

BOOLEAN IocsqExpectEnd(IOCSQ_REQUEST *Request) {
    struct iocsq_irp *i = (struct iocsq_irp *)(void *)Request;
    IOCSQ_POLICY policy = iocsq_policy_of(i);
    ULONG within = policy.Within ? policy.Within : (ULONG)USUAL;
    bool cancelled = i->irp.Cancel;
    /* More than once, since a timer may be at work just now. */
    for (int look = 0; look < LOOKS; look++) {
        if (iocsq_wait_for(i, rest_of(i, within))) {
            return TRUE;
        }
        iocsq_own.hushed++;
        bool waits = !cancelled && policy.Waits && policy.Waits(&i->irp);
        iocsq_own.hushed--;
        if (waits) {
            return FALSE;
        }
        IocsqPause(BETWEEN);
    }
    if (cancelled) {
        iocsq_disagree(i, "irp %u (major %02x) %s, and waits for ever, though it was cancelled",
                       i->index, i->major, iocsq_place_name(i));
    }
    iocsq_disagree(i,
                   "irp %u (major %02x) %s, and waits for ever: a wake-up was lost, or it may wait "
                   "and the policy doesn't say so (Waits)",
                   i->index, i->major, iocsq_place_name(i));
}
