/* The verdict of a driver's CsqPeekNextIrp where csq_judge_peek can't give it, since the queue
 * knows neither the driver's matches nor its order: functions of numbers alone. An IRP is the
 * number that it has in the queue of csq.h, or IOCSQ_NONE. */
#ifndef IOCSQ_JUDGE_H
#define IOCSQ_JUDGE_H
#include <stdbool.h>
#include <stdint.h>

#include "csq.h"

#define IOCSQ_NONE CSQ_ANY

/* What is known of the answer of a peek, where it is an IRP. */
struct iocsq_facts {
    bool listed;
    bool match;
    bool after; /* it stands after the IRP from which the peek went on; true where it went from the
                 * first */
};

struct iocsq_judgement {
    uint32_t verdict; /* of enum csq_peek_verdict */
    uint32_t skipped; /* of CSQ_PEEK_SKIPS */
};

/* Of a driver that keeps the queue's order, and has matches of its own: `expected` is the first of
 * them. */
struct iocsq_judgement iocsq_judge(uint32_t expected, uint32_t answer, struct iocsq_facts facts);

/* Of a driver that keeps an order of its own: `facts.after` says that the answer hadn't come before
 * in this search, and `left` is a listed match that hasn't come, or IOCSQ_NONE. */
struct iocsq_judgement iocsq_judge_any_order(uint32_t left, uint32_t answer,
                                             struct iocsq_facts facts);

#endif
