/* Contexts of Windows: fibers. A report ends a bounded search by a jump to where it was begun, and
 * a run may end halfway, so the first fiber goes on there once another has switched to it: a jump
 * from one stack to another isn't known to the system. */
#include "contexts.h"
#include "system.h"

#ifdef _WIN32
#define WIN32_LEAN_AND_MEAN
#include <windows.h>

#include <errno.h>
#include <stdlib.h>

/* Only what is touched of a stack takes memory. */
enum { STACK = 1 << 23, COMMITTED = 64 * 1024 };

static void **fibers;   /* of each context, the last one: null, there was none */
static void **leads_to; /* where context 0 goes on; null: where it was */

void iocsq_begin_contexts(size_t count) {
    fibers = calloc(count, sizeof *fibers);
    if (fibers) {
        *fibers = IsThreadAFiber() ? GetCurrentFiber()
                                   : ConvertThreadToFiberEx(NULL, FIBER_FLAG_FLOAT_SWITCH);
    }
    if (!fibers || !*fibers) {
        iocsq_fail("no room for the stacks of threads");
    }
}

static void CALLBACK begin_fiber(void *begin) {
    ((void (*)(void))(uintptr_t)begin)();
}

void iocsq_make_context(size_t number, void (*begin)(void)) {
    if (fibers[number]) {
        DeleteFiber(fibers[number]);
    }
    fibers[number] = CreateFiberEx(COMMITTED, STACK, FIBER_FLAG_FLOAT_SWITCH, begin_fiber,
                                   (void *)(uintptr_t)begin);
    if (!fibers[number]) {
        iocsq_fail("no memory for a thread's stack");
    }
}

static void jump(void) {
    void **to = leads_to;
    leads_to = NULL;
    __builtin_longjmp(to, 1);
}

/* The C library's errno is each thread's own. */
void iocsq_switch_context(size_t from, size_t to, bool ended) {
    int error = errno;
    (void)ended;
    SwitchToFiber(fibers[to]);
    errno = error;
    if (leads_to && from == 0) {
        jump();
    }
}

void iocsq_leave_contexts(void **to) {
    leads_to = to;
    if (fibers && GetCurrentFiber() != *fibers) {
        SwitchToFiber(*fibers);
    }
    jump();
    abort();
}

bool iocsq_is_own_stack(const void *at) {
    return iocsq_is_on_thread_stack(at);
}
#endif
