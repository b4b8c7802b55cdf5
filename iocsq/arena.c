/* Memory of one run. A run that is left halfway frees nothing: all that is allocated for it, also
 * by the library and by a driver in C++, is taken from an arena, where the next run begins anew.
 * The program is linked with --wrap=malloc, --wrap=calloc, --wrap=realloc and --wrap=free. */
#define _GNU_SOURCE
#include "internal.h"

#include <stdlib.h>

enum { ARENA = 1 << 28, ALIGNMENT = 16 };
static char *arena; /* null: there is none; mapped once, before the variables are saved */
static char *next;  /* null: not now */

/* What stands before each block. */
struct block {
    size_t size;
    size_t aligns;
};

void *__real_malloc(size_t size) IOCSQ_REAL;
void *__real_calloc(size_t count, size_t size) IOCSQ_REAL;
void *__real_realloc(void *at, size_t size) IOCSQ_REAL;
void __real_free(void *at) IOCSQ_REAL;
void *__wrap_malloc(size_t size);
void *__wrap_calloc(size_t count, size_t size);
void *__wrap_realloc(void *at, size_t size);
void __wrap_free(void *at);

/* Whether the program is linked so. */
static bool is_linked(void *(*real)(size_t)) {
    return real != NULL;
}

bool iocsq_begin_arena(void) {
    if (is_linked(__real_malloc) && !arena) {
        arena = iocsq_map(ARENA, "no memory for runs");
    }
    return arena != NULL;
}

void iocsq_use_arena(bool uses) {
    next = uses ? arena : NULL;
}

static bool is_of_arena(const void *at) {
    return arena && (uintptr_t)at - (uintptr_t)arena < ARENA;
}

static bool has_room(size_t size) {
    size_t left = next ? (size_t)(arena + ARENA - next) : 0;
    return size < ARENA && size + sizeof(struct block) + ALIGNMENT <= left;
}

void *__wrap_malloc(size_t size) {
    if (!has_room(size)) {
        return __real_malloc(size);
    }
    struct block *made = (struct block *)(void *)next;
    made->size = size;
    next += sizeof *made + (size + ALIGNMENT - 1) / ALIGNMENT * ALIGNMENT;
    return made + 1;
}

void *__wrap_calloc(size_t count, size_t size) {
    if (size && count > SIZE_MAX / size) {
        return NULL;
    }
    return has_room(count * size) ? memset(__wrap_malloc(count * size), 0, count * size)
                                  : __real_calloc(count, size);
}

void *__wrap_realloc(void *at, size_t size) {
    if (at && !is_of_arena(at)) {
        return __real_realloc(at, size);
    }
    size_t before = at ? ((struct block *)at)[-1].size : 0;
    void *made = __wrap_malloc(size);
    return made && at ? memcpy(made, at, before < size ? before : size) : made;
}

void __wrap_free(void *at) {
    if (!is_of_arena(at)) {
        __real_free(at);
    }
}
