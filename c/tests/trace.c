/* Makes many calls that follow from a seed, right ones and wrong ones, and prints what they
 * answered: two libraries, or the two lists of one, are compared by what this prints. With a fourth
 * word each call has a line, and otherwise each thousand calls have a number that stands for
 * them. */
#include "csq.h"

#include <stdio.h>
#include <stdlib.h>

enum { IRPS = 7, FILES = 3, PASSES = 3, QUEUES = 400 };

static struct csq_queue queue;
static struct csq_pass passes[PASSES];
static struct csq_irp contexts[IRPS];
/* What each pass got last, and what it came to owe last, so that some calls are of these. */
static struct csq_irp got[PASSES], owes[PASSES];
static uint64_t state, digest = 14695981039346656037u;
static unsigned long calls;
static int reports_each;

static uint32_t pick(uint32_t below) {
    state = state * 6364136223846793005u + 1442695040888963407u;
    return (uint32_t)(state >> 33) % below;
}

static void report(const char *call, uint32_t code, uint32_t one, uint32_t two) {
    uint32_t numbers[] = { (uint32_t)call[0], code, one, two };
    for (size_t at = 0; at < 4; at++) {
        digest = (digest ^ numbers[at]) * 1099511628211u;
    }
    calls++;
    if (reports_each) {
        printf("%lu %s: %u, %u %u\n", calls, call, code, one, two);
    } else if (calls % 1000 == 0) {
        printf("%lu calls: %016llx\n", calls, (unsigned long long)digest);
    }
}

/* Mostly an IRP, at times one too many. */
static uint32_t some_irp(void) {
    return pick(40) ? pick(IRPS) : IRPS + pick(3);
}

static uint32_t some_file(void) {
    return pick(40) ? pick(FILES) : FILES + pick(3);
}

/* Mostly the name in its latest context, at times of a life near it. */
static struct csq_irp some_name(void) {
    struct csq_irp name = { some_irp(), 0 };
    name.life = contexts[name.irp % IRPS].life + (pick(10) ? 0 : pick(3) - 1);
    return name;
}

static void make_insert(int by) {
    struct csq_irp context = { 99, 99 };
    uint32_t code = csq_insert(&queue, &passes[by], some_irp(), some_file(), pick(2), &context);
    if (code == CSQ_OK || code == CSQ_CANCELLED) {
        contexts[context.irp] = context;
    }
    if (code == CSQ_CANCELLED) {
        got[by] = context;
    }
    report("insert", code, context.irp, context.life);
}

static void make_removal(int by) {
    struct csq_irp irp = some_name();
    uint32_t code;
    if (pick(2)) {
        code = csq_remove_next(&queue, &passes[by], pick(2) ? CSQ_ANY : some_file(), &irp);
        report("next", code, irp.irp, irp.life);
    } else {
        code = csq_remove(&queue, &passes[by], irp);
        report("remove", code, irp.irp, irp.life);
    }
    if (code == CSQ_OK) {
        got[by] = irp;
    }
}

static void make_put_back(int by) {
    struct csq_irp irp = pick(5) ? got[by] : some_name(), context = { 99, 99 };
    uint32_t code = csq_put_back(&queue, &passes[by], irp, pick(2), &context);
    if (code == CSQ_CANCELLED) {
        got[by] = context;
    }
    report("put back", code, context.irp, context.life);
}

static void make_cancel(int by) {
    struct csq_irp irp = some_name();
    uint32_t found = 99;
    uint32_t code = csq_mark_cancel(&passes[by], irp, &found);
    report("mark", code, irp.irp, found);
    if (code == CSQ_OK && found) {
        owes[by] = irp;
    }
}

static void make_routine(int by) {
    struct csq_irp irp = pick(3) ? owes[by] : some_name();
    uint32_t code;
    if (pick(3)) {
        code = csq_cancel_routine(&queue, &passes[by], irp);
        report("routine", code, irp.irp, irp.life);
    } else {
        code = csq_cancel_owed(&queue, &passes[by], irp);
        report("owed", code, irp.irp, irp.life);
    }
    if (code == CSQ_OK) {
        got[by] = irp;
    }
}

static void make_completion(int by) {
    struct csq_irp irp = pick(3) ? got[by] : some_name();
    if (pick(2)) {
        uint32_t status = pick(5) ? pick(5) : CSQ_STATUS_PENDING;
        report("complete", csq_complete(&passes[by], irp, status), irp.irp, status);
    } else {
        report("cancelled", csq_complete_cancelled(&passes[by], irp), irp.irp, irp.life);
    }
}

/* A small one, or one of the two that aren't judged by who holds the IRP alone. */
static uint32_t some_status(void) {
    static const uint32_t others[] = { CSQ_STATUS_CANCELLED, CSQ_STATUS_PENDING };
    return pick(3) ? pick(5) : others[pick(2)];
}

static void make_judgement(int by) {
    struct csq_irp irp = pick(3) ? got[by] : some_name();
    uint32_t verdict = 99, code;
    switch (pick(3)) {
    case 0:
        code = csq_judge_remove(&queue, &passes[by], irp, &verdict);
        report("remove", code, irp.irp, verdict);
        if (code == CSQ_OK && verdict == CSQ_REMOVE_AGREES) {
            got[by] = irp;
        }
        break;
    case 1:
        code = csq_judge_insert(&queue, &passes[by], irp, &verdict);
        report("again", code, irp.irp, verdict);
        break;
    default:
        code = csq_judge_complete(&queue, &passes[by], irp, some_status(), &verdict);
        report("complete", code, irp.irp, verdict);
    }
}

static void make_reuse(int by) {
    struct csq_irp irp = some_name();
    uint32_t life = 99, code = csq_reuse(&queue, &passes[by], irp, &life);
    if (code == CSQ_OK) {
        contexts[irp.irp].life = life;
    }
    report("reuse", code, irp.irp, life);
}

static void make_look(void) {
    struct csq_irp irp = { 99, 99 };
    uint32_t len = 99, file = some_file();
    uint32_t code =
        csq_peek_next(&queue, pick(2) ? CSQ_ANY : some_irp(), pick(2) ? CSQ_ANY : file, &irp);
    report("peek", code, irp.irp, irp.life);
    uint32_t verdict = 99, skipped = 99, after = pick(2) ? CSQ_ANY : some_irp();
    code = csq_judge_peek(&queue, after, pick(2) ? CSQ_ANY : file, pick(4) ? some_irp() : CSQ_ANY,
                          &verdict, &skipped);
    report("judge", code, verdict, skipped);
    uint32_t excused[] = { some_irp(), some_irp() }, left = 99;
    code = csq_judge_cleanup(&queue, file, excused, pick(3), &left);
    report("left", code, file, left);
    code = csq_file_len(&queue, file, &len);
    report("file len", code, file, len);
    code = csq_len(&queue, &len);
    report("len", code, len, 0);
}

static void make_read(int by) {
    uint32_t irp = some_irp(), one = 99, two = 99, code;
    switch (pick(5)) {
    case 0:
        code = csq_read_status(&passes[by], irp, &one, &two);
        report("status", code, one, two);
        break;
    case 1:
        code = csq_read_cancel(&passes[by], irp, &one, &two);
        report("flag", code, one, two);
        break;
    case 2:
        code = csq_count_held(&passes[by], &one, &two);
        report("holding", code, one, two);
        break;
    case 3:
        code = csq_count_passes_out(&queue, &one);
        report("out", code, one, 0);
        break;
    default:
        make_look();
    }
}

static void make_call(void) {
    static void (*const kinds[])(
        int) = { make_insert,     make_insert, make_insert,  make_removal, make_removal,
                 make_put_back,   make_cancel, make_routine, make_routine, make_completion,
                 make_completion, make_reuse,  make_reuse,   make_read,    make_judgement };
    int by = (int)pick(PASSES);
    if (pick(200) == 0) {
        uint32_t file = some_file();
        report("file", csq_close_file(&queue, &passes[by], file), file, 0);
    } else {
        kinds[pick(sizeof kinds / sizeof *kinds)](by);
    }
}

static void begin(uint32_t list) {
    uint32_t first = pick(4) ? pick(3) : CSQ_LAST_LIFE - pick(6);
    uint32_t limits[FILES] = { 1 + pick(IRPS), 1 + pick(IRPS), 1 + pick(3) };
    struct csq_size size = { IRPS, FILES, 1 + pick(IRPS), PASSES, first, list };
    report("new", csq_new_with_file_limits(&queue, &size, limits, FILES), first, 0);
    for (uint32_t irp = 0; irp < IRPS; irp++) {
        contexts[irp].irp = irp;
        contexts[irp].life = first;
    }
    for (int at = 0; at < PASSES; at++) {
        report("pass", csq_take_pass(&queue, &passes[at]), 0, 0);
    }
}

static void end(void) {
    struct csq_left left = { 99, 99, 99, 99 };
    uint32_t irp = CSQ_ANY;
    for (int at = 0; at < PASSES; at++) {
        report("back", csq_give_back(&queue, &passes[at]), 0, 0);
        for (uint32_t each = 0; each < IRPS; each++) {
            report("routine", csq_cancel_routine(&queue, &passes[at], contexts[each]), each, 0);
            report("cancelled", csq_complete_cancelled(&passes[at], contexts[each]), each, 0);
        }
        report("back", csq_give_back(&queue, &passes[at]), 0, 0);
    }
    report("close", csq_close(&queue), 0, 0);
    while (csq_read_listed(&queue, irp, &irp) == CSQ_OK) {
        report("listed", 0, irp, 0);
    }
    for (uint32_t each = 0; each < IRPS; each++) {
        uint32_t code = csq_read_left(&queue, each, &left);
        report("left", code, left.life, left.cancelled);
        report("left", code, left.completed, left.status);
    }
    report("free", csq_free(&queue), 0, 0);
}

int main(int count, char **words) {
    if (count < 4) {
        fprintf(stderr, "usage: trace SEED LIST CALLS [each]\n");
        return 2;
    }
    state = strtoul(words[1], NULL, 10);
    uint32_t list = words[2][0] == 'c' ? CSQ_CHAINS : CSQ_VECTOR;
    unsigned long most = strtoul(words[3], NULL, 10) / QUEUES;
    reports_each = count > 4;
    for (int at = 0; at < QUEUES; at++) {
        begin(list);
        for (unsigned long made = 0; made < most; made++) {
            make_call();
        }
        end();
    }
    return 0;
}
