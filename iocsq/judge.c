#include "judge.h"

static struct iocsq_judgement agrees(void) {
    struct iocsq_judgement made = { CSQ_PEEK_AGREES, IOCSQ_NONE };
    return made;
}

static struct iocsq_judgement skips(uint32_t irp) {
    struct iocsq_judgement made = { CSQ_PEEK_SKIPS, irp };
    return made;
}

/* What is wrong with the answer whatever was expected. */
static struct iocsq_judgement judge_facts(struct iocsq_facts facts) {
    struct iocsq_judgement made = agrees();
    if (!facts.listed) {
        made.verdict = CSQ_PEEK_NOT_LISTED;
    } else if (!facts.match) {
        made.verdict = CSQ_PEEK_NO_MATCH;
    } else if (!facts.after) {
        made.verdict = CSQ_PEEK_BACKWARDS;
    }
    return made;
}

struct iocsq_judgement iocsq_judge(uint32_t expected, uint32_t answer, struct iocsq_facts facts) {
    if (answer == expected) {
        return agrees();
    }
    struct iocsq_judgement made = answer == IOCSQ_NONE ? agrees() : judge_facts(facts);
    return made.verdict == CSQ_PEEK_AGREES ? skips(expected) : made;
}

struct iocsq_judgement iocsq_judge_any_order(uint32_t left, uint32_t answer,
                                             struct iocsq_facts facts) {
    if (answer == IOCSQ_NONE) {
        return left == IOCSQ_NONE ? agrees() : skips(left);
    }
    return judge_facts(facts);
}
