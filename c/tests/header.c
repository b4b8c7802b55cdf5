/* The header alone: each name that it promises, as C and as C++. Compiled with all warnings as
 * errors. */
#include "csq.h"

/* A second time does no harm. */
#include "csq.h"

#include <stdio.h>
#include <string.h>

static struct csq_queue queue = CSQ_EMPTY;
static struct csq_pass pass = CSQ_EMPTY;

static void lock(void *of) {
    ++*(int *)of;
}

static void unlock(void *of) {
    --*(int *)of;
}

/* Every code has a case of its own, so no two are the same number. */
static const char *name_of(uint32_t code) {
    switch (code) {
#define NAME(code) \
    case code: \
        return #code
        NAME(CSQ_OK);
        NAME(CSQ_UNKNOWN_IRP);
        NAME(CSQ_UNKNOWN_FILE);
        NAME(CSQ_NOT_HOME);
        NAME(CSQ_FILE_CLOSED);
        NAME(CSQ_FULL);
        NAME(CSQ_FILE_FULL);
        NAME(CSQ_CANCELLED);
        NAME(CSQ_NONE);
        NAME(CSQ_STALE);
        NAME(CSQ_NOT_COMPLETED);
        NAME(CSQ_LIVES_SPENT);
        NAME(CSQ_NOT_HELD);
        NAME(CSQ_NOT_OWED);
        NAME(CSQ_NOT_REMOVED);
        NAME(CSQ_NOT_FINAL);
        NAME(CSQ_HOLDING);
        NAME(CSQ_PASSES_OUT);
        NAME(CSQ_NO_PASS);
        NAME(CSQ_BAD_SIZE);
        NAME(CSQ_NO_MEMORY);
        NAME(CSQ_EMPTY_HANDLE);
        NAME(CSQ_NOT_EMPTY);
        NAME(CSQ_NOT_LISTED);
        NAME(CSQ_CLOSED);
        NAME(CSQ_NOT_CLOSED);
        NAME(CSQ_OTHER_QUEUE);
        NAME(CSQ_UNKNOWN_PASS);
        NAME(CSQ_LOCK_HELD);
        NAME(CSQ_NOT_NEXT);
    default:
        return "";
    }
}

/* A queue's whole way, so that every function is linked, also from C++. */
static uint32_t way(void) {
    struct csq_size size = { 2, 1, 2, 1, 0, CSQ_VECTOR };
    uint32_t limits[] = { 2 }, number = 0, other = 0;
    struct csq_irp irp = { 0, 0 };
    struct csq_left left = { 0, 0, 0, 0 };
    int held = 0;
    struct csq_lock its_lock = { lock, unlock, &held };
    struct csq_events events = { NULL, NULL, NULL };
    uint32_t wrong = csq_new(&queue, &size) | csq_free(&queue);
    wrong |= csq_new_with_file_limits(&queue, &size, limits, 1) | csq_take_pass(&queue, &pass);
    wrong |= csq_insert(&queue, &pass, 0, 0, 1, &irp) | csq_remove(&queue, &pass, irp);
    wrong |= csq_put_back(&queue, &pass, irp, 1, &irp) | csq_remove(&queue, &pass, irp) |
             csq_complete(&pass, irp, 0);
    wrong |= csq_reuse(&queue, &pass, irp, &number) | csq_insert(&queue, &pass, 0, 0, 0, &irp);
    wrong |= csq_cancel(&queue, &pass, irp, &its_lock, NULL, &number) |
             csq_insert(&queue, &pass, 1, 0, 0, &irp);
    wrong |= csq_peek_next(&queue, CSQ_ANY, 0, &irp) | csq_len(&queue, &number) |
             csq_file_len(&queue, 0, &number);
    wrong |=
        csq_judge_peek(&queue, CSQ_ANY, 0, irp.irp, &number, &other) | (number ^ CSQ_PEEK_AGREES);
    wrong |= csq_judge_cleanup(&queue, 0, &irp.irp, 1, &number) | (number ^ CSQ_ANY);
    wrong |= csq_mark_cancel(&pass, irp, &number) | csq_cancel_routine(&queue, &pass, irp);
    wrong |= csq_judge_remove(&queue, &pass, irp, &number) | (number ^ CSQ_REMOVE_NOT_LISTED);
    wrong |= csq_judge_insert(&queue, &pass, irp, &number) | (number ^ CSQ_USE_GOT_CANCELLED);
    wrong |= csq_judge_complete(&queue, &pass, irp, CSQ_STATUS_PENDING, &number) |
             (number ^ CSQ_USE_GOT_CANCELLED);
    wrong |=
        csq_complete_cancelled(&pass, irp) | (csq_cancel_owed(&queue, &pass, irp) ^ CSQ_NOT_OWED);
    wrong |= csq_drain(&queue, &pass, 0, &its_lock, NULL, &number) | csq_free(NULL);
    wrong |= csq_drain_with(&queue, &pass, 0, &its_lock, NULL, &number) | (number ^ 0);
    wrong |= csq_cancel_with(&queue, &pass, irp, &its_lock, &events, &number) | (number ^ 0);
    wrong |= csq_cleanup_with(&queue, &pass, 0, &its_lock, &events, &number) | (number ^ 0);
    wrong |= csq_cleanup(&queue, &pass, 0, &its_lock, NULL, &number) |
             (csq_version() ^ CSQ_VERSION_NUMBER);
    wrong |= csq_close_file(&queue, &pass, 0) | csq_read_cancel(&pass, 0, &number, &other);
    wrong |= csq_read_status(&pass, 0, &number, &other) | csq_count_held(&pass, &number, &other);
    wrong |= csq_count_passes_out(&queue, &number) |
             (csq_remove_next(&queue, &pass, CSQ_ANY, &irp) ^ CSQ_NONE);
    wrong |= (csq_abandon_pass(&pass) | csq_abandon_pass(&pass)) ^ CSQ_EMPTY_HANDLE;
    wrong |= (csq_close(&queue) ^ CSQ_PASSES_OUT) |
             (csq_read_listed(&queue, CSQ_ANY, &number) ^ CSQ_NOT_CLOSED);
    wrong |= (csq_read_left(&queue, 0, &left) ^ CSQ_NOT_CLOSED) |
             (csq_give_back(&queue, &pass) ^ CSQ_EMPTY_HANDLE);
    return wrong | (uint32_t)held;
}

static int failed;

static void report(const char *test, int holds) {
    printf("%s %s\n", holds ? "passed" : "FAILED", test);
    failed |= !holds;
}

/* csq_name beside the cases above, which the preprocessor wrote. */
static int names_are_right(uint32_t codes) {
    for (uint32_t code = 0; code < codes; code++) {
        if (strcmp(csq_name(code), name_of(code)) != 0) {
            return 0;
        }
    }
    return strcmp(csq_name(codes), "?") == 0 && strcmp(csq_name(UINT32_MAX), "?") == 0;
}

/* The numbers are those of Windows' ntstatus.h. */
static int insert_statuses_are_right(void) {
    static const struct {
        uint32_t code, status;
    } rows[] = {
        { CSQ_OK, 0x00000103 },           { CSQ_CANCELLED, 0x00000103 },
        { CSQ_FILE_CLOSED, 0xC0000128 },  { CSQ_FULL, 0xC000009A },
        { CSQ_FILE_FULL, 0xC000009A },    { CSQ_UNKNOWN_IRP, 0xC000000D },
        { CSQ_UNKNOWN_FILE, 0xC000000D }, { CSQ_NOT_HOME, 0xC000000D },
        { CSQ_CLOSED, 0xC000000D },       { CSQ_EMPTY_HANDLE, 0xC000000D },
    };
    int right = 1;
    for (size_t row = 0; row < sizeof rows / sizeof *rows; row++) {
        right &= csq_insert_status(rows[row].code) == rows[row].status;
    }
    return right;
}

int main(void) {
    uint32_t named = 0;
    while (*name_of(named)) {
        named++;
    }
    int fits = named == CSQ_NOT_NEXT + 1 && sizeof(struct csq_irp) == 8 &&
               sizeof(struct csq_size) == 24 && sizeof(struct csq_left) == 16 &&
               sizeof queue == 16 && sizeof pass == 16;
    report("the_header_names_what_is_there", fits && way() == 0);
    report("each_code_has_its_name", names_are_right(named));
    report("an_insert_has_its_status", insert_statuses_are_right());
    return failed;
}
