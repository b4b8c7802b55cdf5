/* The lines of csqsim's schedules, as the tests of csq_replay.h read and write them: p1 arm 0@1. */
#ifndef REPLAY_WORDS_H
#define REPLAY_WORDS_H

#include "csq_replay.h"

#include <inttypes.h>
#include <stdio.h>
#include <string.h>

/* By their numbers. */
static const char *const kind_words[] = { "",     "arm", "test", "disarm", "end",  "flag",
                                          "take", "out", "done", "renew",  "rearm" };
enum { KINDS = sizeof kind_words / sizeof *kind_words };

static inline uint32_t kind_of(const char *word) {
    uint32_t kind = 1;
    while (kind < KINDS && strcmp(kind_words[kind], word) != 0) {
        kind++;
    }
    return kind;
}

/* The step of a line that is well formed; its kind is none if the word is none. */
static inline struct csq_step step_of(const char *line, uint64_t number) {
    struct csq_step step = { number, 0, 0, { 0, 0 } };
    char word[16] = "";
    sscanf(line, "p%" SCNu32 " %15[a-z] %" SCNu32 "@%" SCNu32, &step.pass, word, &step.irp.irp,
           &step.irp.life);
    step.kind = kind_of(word);
    return step;
}

static inline void print_name(FILE *out, struct csq_irp irp) {
    fprintf(out, "%" PRIu32, irp.irp);
    if (irp.life) {
        fprintf(out, "@%" PRIu32, irp.life);
    }
}

static inline void print_step(FILE *out, const struct csq_step *step) {
    fprintf(out, "p%" PRIu32 " %s", step->pass, kind_words[step->kind]);
    if (step->kind != CSQ_STEP_END) {
        fputc(' ', out);
        print_name(out, step->irp);
    }
}

#endif
