/* The judge of schedules, for schedules.c and coverage.c. */
#ifndef IOCSQ_VERDICTS_H
#define IOCSQ_VERDICTS_H
#include "csq_replay.h"

#include "internal.h"

/* What came of a replay. */
struct iocsq_verdict {
    uint32_t refused; /* the step, from 1 on; 0: none */
    uint32_t code;    /* of csq_replay_step, for that step */
    struct csq_refusal refusal;
};
struct iocsq_verdict iocsq_judge_steps(const struct iocsq_schedule *s);
/* Reports that a step was refused, with what the driver does. */
void iocsq_report_refused(const struct iocsq_irp *i, const struct iocsq_schedule *s,
                          const struct iocsq_verdict *v) __attribute__((noreturn));
/* Whether the library says of itself that it is proved. */
bool iocsq_is_judge_proved(void);

#endif
