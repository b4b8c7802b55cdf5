/* The judgement of a peek's answer, over each list of four IRPs, each set of matches, each place to
 * go on from and each answer: compared with what the words of judge.h say of a list. */
#include "judge.h"

#include <stdio.h>

enum { IRPS = 4, ANSWERS = IRPS + 2, UNLISTED = IRPS };

/* A list of IRPs, of which some are matches. */
struct list {
    uint32_t irps[IRPS];
    uint32_t count;
    bool match[IRPS];
};

static unsigned long judged, wrong;

/* Where an IRP stands, counted from 1; 0: nowhere. */
static uint32_t position(const struct list *list, uint32_t irp) {
    for (uint32_t at = 0; at < list->count; at++) {
        if (list->irps[at] == irp) {
            return at + 1;
        }
    }
    return 0;
}

/* The first match that stands after the position `after`. */
static uint32_t first_match(const struct list *list, uint32_t after) {
    for (uint32_t at = after; at < list->count; at++) {
        if (list->match[list->irps[at]]) {
            return list->irps[at];
        }
    }
    return IOCSQ_NONE;
}

/* The judgement as judge.h words it. */
static bool is_right(const struct list *list, uint32_t after, uint32_t answer,
                     struct iocsq_judgement got) {
    uint32_t at = answer == IOCSQ_NONE ? 0 : position(list, answer),
             expected = first_match(list, after);
    switch (got.verdict) {
    case CSQ_PEEK_AGREES: return answer == expected;
    case CSQ_PEEK_NOT_LISTED: return answer != IOCSQ_NONE && at == 0;
    case CSQ_PEEK_NO_MATCH: return at > 0 && !list->match[answer];
    case CSQ_PEEK_BACKWARDS: return at > 0 && list->match[answer] && at <= after;
    default:
        return got.skipped == expected && expected != answer &&
               (answer == IOCSQ_NONE || at > after);
    }
}

static void judge_answer(const struct list *list, uint32_t after, uint32_t answer) {
    uint32_t at = answer == IOCSQ_NONE ? 0 : position(list, answer);
    struct iocsq_facts facts = { at > 0, at > 0 && list->match[answer], at > after };
    struct iocsq_judgement got = iocsq_judge(first_match(list, after), answer, facts);
    judged++;
    if (!is_right(list, after, answer, got)) {
        wrong++;
        printf("judge: of the answer %u after place %u: verdict %d\n", answer, after,
               (int)got.verdict);
    }
}

static void judge_list(struct list *list) {
    for (uint32_t matches = 0; matches < 1u << IRPS; matches++) {
        for (uint32_t irp = 0; irp < IRPS; irp++) {
            list->match[irp] = matches >> irp & 1;
        }
        for (uint32_t after = 0; after <= list->count; after++) {
            for (uint32_t answer = 0; answer < ANSWERS; answer++) {
                judge_answer(list, after, answer <= UNLISTED ? answer : IOCSQ_NONE);
            }
        }
    }
}

/* Each list that begins with this one. */
static void extend(struct list *list) {
    judge_list(list);
    for (uint32_t irp = 0; irp < IRPS; irp++) {
        if (position(list, irp) == 0) {
            list->irps[list->count++] = irp;
            extend(list);
            list->count--;
        }
    }
}

int main(void) {
    struct list list = { .count = 0 };
    extend(&list);
    printf("%lu judged, %lu wrong\n", judged, wrong);
    return wrong > 0;
}
