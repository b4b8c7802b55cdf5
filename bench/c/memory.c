/* Prints the memory that a queue takes for each IRP, file object and pass, over both kinds of list,
 * and what csq_requests.h takes beside it: a row has the list, what for, and the bytes, as malloc
 * hands them out (without its own few for each block). The linker leads all calls for memory here
 * (--wrap). */
#define _POSIX_C_SOURCE 200809L
#include "csq_requests.h"
#include "../../c/tests/wrapped.h"

#include <malloc.h>
#include <stdio.h>
#include <stdlib.h>

static size_t taken;

static void *counted(void *block) {
    taken += malloc_usable_size(block);
    return block;
}

void *__wrap_malloc(size_t bytes) {
    return counted(__real_malloc(bytes));
}

void *__wrap_calloc(size_t count, size_t bytes) {
    return counted(__real_calloc(count, bytes));
}

void *__wrap_realloc(void *block, size_t bytes) {
    taken -= malloc_usable_size(block);
    return counted(__real_realloc(block, bytes));
}

void *__wrap_aligned_alloc(size_t alignment, size_t bytes) {
    return counted(__real_aligned_alloc(alignment, bytes));
}

int __wrap_posix_memalign(void **block, size_t alignment, size_t bytes) {
    int code = __real_posix_memalign(block, alignment, bytes);
    if (code == 0) {
        counted(*block);
    }
    return code;
}

void __wrap_free(void *block) {
    taken -= malloc_usable_size(block);
    __real_free(block);
}

static void must(int holds, const char *what) {
    if (!holds) {
        fprintf(stderr, "memory: %s\n", what);
        exit(1);
    }
}

/* What a queue, its first pass, and csq_requests.h beside these two take. */
struct bytes {
    size_t queue;
    size_t pass;
    size_t beside;
};

static struct bytes bytes_of(uint32_t list, uint32_t irps, uint32_t files, uint32_t passes) {
    const struct csq_size size = { irps, files, irps, passes, 0, list };
    struct csq_queue queue = CSQ_EMPTY;
    struct csq_pass pass = CSQ_EMPTY;
    struct csq_requests *requests = NULL;
    struct bytes found;
    size_t before = taken;
    must(csq_new(&queue, &size) == CSQ_OK, "no queue");
    found.queue = taken - before;
    must(csq_take_pass(&queue, &pass) == CSQ_OK, "no pass");
    found.pass = taken - before - found.queue;
    must(csq_give_back(&queue, &pass) == CSQ_OK && csq_free(&queue) == CSQ_OK, "not freed");
    must(taken == before, "memory is kept");
    must(csq_requests_new(&requests, &size, NULL, NULL) == CSQ_OK, "no requests");
    found.beside = taken - before - found.queue - found.pass;
    must(csq_requests_free(&requests) == CSQ_OK && taken == before, "memory is kept");
    return found;
}

static void print(const char *list, const char *what, size_t least, size_t most, uint32_t count) {
    printf("%s %s %.1f\n", list, what, (double)(most - least) / count);
}

int main(void) {
    static const char *const lists[] = { "vector", "chains" };
    for (uint32_t list = CSQ_VECTOR; list <= CSQ_CHAINS; list++) {
        struct bytes one = bytes_of(list, 1, 1, 1), irps = bytes_of(list, CSQ_MOST_IRPS, 1, 1);
        struct bytes files = bytes_of(list, 1, CSQ_MOST_FILES, 1),
                     passes = bytes_of(list, 1, 1, CSQ_MOST_PASSES);
        uint32_t more_irps = CSQ_MOST_IRPS - 1, more_files = CSQ_MOST_FILES - 1;
        print(lists[list], "queue", 0, one.queue, 1);
        print(lists[list], "queue-irp", one.queue, irps.queue, more_irps);
        print(lists[list], "queue-file", one.queue, files.queue, more_files);
        print(lists[list], "queue-pass", one.queue, passes.queue, CSQ_MOST_PASSES - 1);
        print(lists[list], "pass", 0, one.pass, 1);
        print(lists[list], "pass-irp", one.pass, irps.pass, more_irps);
        print(lists[list], "pass-file", one.pass, files.pass, more_files);
        print(lists[list], "requests", 0, one.beside, 1);
        print(lists[list], "requests-irp", one.beside, irps.beside, more_irps);
        print(lists[list], "requests-file", one.beside, files.beside, more_files);
    }
    return 0;
}
