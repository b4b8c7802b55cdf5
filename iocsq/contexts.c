/* Contexts: a switch saves and loads no more registers than the compiler's own setjmp does, and
 * makes no system call. The sanitizers are told of each. */
#define _GNU_SOURCE
#include "contexts.h"
#include "internal.h"

#ifndef _WIN32
#include <errno.h>
#include <stdlib.h>
#include <sys/mman.h>
#include <ucontext.h>

/* A stack is as large as one of a thread of the system. Only what is touched of it takes memory,
 * and no access is to the guard, at its end. */
enum { STACK = 1 << 23, GUARD = 1 << 16 };

struct context {
    void *registers[5];  /* as it was left */
    void (*begin)(void); /* as it is first switched to; null: it has begun */
    void *stack;         /* null: not known yet */
    size_t size;
    void *fiber; /* the thread sanitizer's */
};
/* Outside of the variables that a run begins with anew. */
static struct context *contexts;
static size_t context_count;
static char *stacks; /* one of each context, but for the first */

/* ---- Sanitizers ---- */
#if defined(__SANITIZE_ADDRESS__)
#define TELLS_ADDRESS 1
#elif defined(__SANITIZE_THREAD__)
#define TELLS_THREAD 1
#elif defined(__has_feature)
#if __has_feature(address_sanitizer)
#define TELLS_ADDRESS 1
#elif __has_feature(thread_sanitizer)
#define TELLS_THREAD 1
#endif
#endif

#ifdef TELLS_ADDRESS
#include <sanitizer/asan_interface.h>
#include <sanitizer/common_interface_defs.h>
/* In functions that are left by a jump: there the sanitizer would take their frames for those of
 * others, or forget all frames of the stack. */
#define TOLD __attribute__((no_sanitize("address")))
static struct context *left; /* which was switched from last */

static void tell_before(void **kept, struct context *from, const struct context *to, bool ended) {
    left = from;
    if (ended) {
        __asan_handle_no_return(); /* its frames don't return, and another may get the stack */
    }
    __sanitizer_start_switch_fiber(ended ? NULL : kept, to->stack, to->size);
}

static void tell_after(void *kept) {
    const void *stack = NULL;
    size_t size = 0;
    __sanitizer_finish_switch_fiber(kept, &stack, &size);
    if (!left->stack) { /* that of the thread of the system */
        left->stack = (void *)(uintptr_t)stack;
        left->size = size;
    }
}
#else
#define TOLD
#define tell_before(kept, from, to, ended) ((void)(kept), (void)(ended))
#define tell_after(kept) ((void)(kept))
#endif

#ifdef TELLS_THREAD
#include <sanitizer/tsan_interface.h>
#define TELL_FIRST() (contexts->fiber = __tsan_get_current_fiber())
#define TELL_SWITCH(to) __tsan_switch_to_fiber((to)->fiber, 0)
static void tell_made(struct context *made) {
    if (made->fiber) {
        __tsan_destroy_fiber(made->fiber);
    }
    made->fiber = __tsan_create_fiber(0);
}
#else
#define TELL_FIRST() ((void)0)
#define TELL_SWITCH(to) ((void)0)
#define tell_made(made) ((void)0)
#endif

/* ---- Contexts ---- */
void iocsq_begin_contexts(size_t count) {
    contexts = calloc(count, sizeof *contexts);
    stacks =
        mmap(NULL, count * STACK, PROT_NONE, MAP_PRIVATE | MAP_ANONYMOUS | MAP_NORESERVE, -1, 0);
    if (!contexts || stacks == MAP_FAILED) {
        iocsq_fail("no room for the stacks of threads");
    }
    context_count = count;
    TELL_FIRST();
}

void iocsq_make_context(size_t number, void (*begin)(void)) {
    struct context *made = &contexts[number];
    if (!made->stack) {
        made->stack = stacks + number * STACK + GUARD;
        made->size = STACK - GUARD;
        if (mprotect(made->stack, made->size, PROT_READ | PROT_WRITE) != 0) {
            iocsq_fail("no memory for a thread's stack");
        }
    }
    made->begin = begin;
    tell_made(made);
}

static void (*entered)(void);

static void begin_context(void) {
    tell_after(NULL);
    entered();
}

TOLD static void enter(struct context *to) {
    ucontext_t first;
    entered = to->begin;
    to->begin = NULL;
    if (getcontext(&first) == 0) {
        first.uc_stack.ss_sp = to->stack;
        first.uc_stack.ss_size = to->size;
        first.uc_link = NULL;
        makecontext(&first, begin_context, 0);
        setcontext(&first);
    }
    iocsq_fail("no context for a thread");
}

/* The C library's errno is each thread's own. */
TOLD void iocsq_switch_context(size_t from, size_t to, bool ended) {
    struct context *next = &contexts[to];
    int error = errno;
    void *kept = NULL;
    tell_before(&kept, &contexts[from], next, ended);
    if (__builtin_setjmp(contexts[from].registers) == 0) {
        TELL_SWITCH(next);
        if (next->begin) {
            enter(next);
        }
        __builtin_longjmp(next->registers, 1);
    }
    tell_after(kept);
    errno = error;
}

void iocsq_leave_contexts(void **to) {
    __builtin_longjmp(to, 1);
}

/* ---- Stacks ---- */
/* How far into the stacks of contexts. */
static uintptr_t offset_of(const void *at) {
    return (uintptr_t)at - (uintptr_t)stacks;
}

bool iocsq_is_own_stack(const void *at) {
    uintptr_t own = offset_of(__builtin_frame_address(0));
    return own < context_count * STACK ? own / STACK == offset_of(at) / STACK
                                       : iocsq_is_on_thread_stack(at);
}
#endif
