/* Contexts of one thread of the system, each with a stack of its own and a number. They are the
 * threads of a run in turns, where one runs at a time: a switch between two threads of the system
 * takes too long. */
#ifndef IOCSQ_CONTEXTS_H
#define IOCSQ_CONTEXTS_H
#include <stdbool.h>
#include <stddef.h>

/* Room for contexts with numbers below this one; 0 is the one that runs. */
void iocsq_begin_contexts(size_t count);
/* It begins with this function, which never returns, as it is first switched to. No other that
 * has this number goes on any more. */
void iocsq_make_context(size_t number, void (*begin)(void));
/* Leaves `from`, which runs, and goes on with `to`. Returns once another switches to `from`, and
 * never if that has ended. */
void iocsq_switch_context(size_t from, size_t to, bool ended);
/* Goes on where context 0 called __builtin_setjmp, from whichever this is. */
void iocsq_leave_contexts(void **to) __attribute__((noreturn));

#endif
