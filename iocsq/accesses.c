/* The driver's own accesses to memory, which no call shows. Its file is compiled with
 * -fsanitize=thread and linked without that sanitizer's library: the calls that the compiler puts
 * before each access come here. They are the look at Irp->Cancel (hand.c), what a peek writes
 * (undo.c), the use of what was freed (deferred.c), and data races (races.c). If the whole program
 * has the sanitizer, its library takes the calls, and nothing is seen. */
#include "internal.h"

#include <errno.h>

#if defined(__SANITIZE_THREAD__)
#define HAS_LIBRARY true
#elif defined(__has_feature)
#if __has_feature(thread_sanitizer)
#define HAS_LIBRARY true
#endif
#endif
#ifndef HAS_LIBRARY
#define HAS_LIBRARY false
#define HAS_NO_LIBRARY 1
#endif

static bool sees;                   /* the driver has such calls */
static bool volatile_orders = true; /* as with MSVC's /volatile:ms, and not its /volatile:iso */

bool iocsq_sees_accesses(void) {
    return sees;
}

VOID IocsqVolatile(BOOLEAN Orders) {
    volatile_orders = Orders;
}

/* All are in one order. */
VOID IocsqMemoryBarrier(VOID) {
    iocsq_touch(&sees, IOCSQ_SYNC);
    __sync_synchronize(); /* of which gcc doesn't warn, as of a fence with -fsanitize=thread */
}

bool iocsq_is_thread_sanitized(void) {
    return HAS_LIBRARY;
}

#ifdef HAS_NO_LIBRARY
#define TSAN(name) __tsan_##name
#include "stubs.h"

enum { WORD = 8 };

static const void *word_of(const void *at) {
    return (const void *)((uintptr_t)at / WORD * WORD);
}

/* Whether others may change it without a lock: then it is touched, and they may come just before.
 * So it is with what is volatile, what iocsq changes itself, and what races with such. */
static bool is_shared(const void *at, unsigned how, const void *place) {
    return how & IOCSQ_ATOMIC || iocsq_is_word(word_of(at)) || iocsq_is_point(place);
}

static unsigned touches_of_volatile(unsigned how) {
    unsigned touches = how & IOCSQ_WRITES ? (unsigned)IOCSQ_CHANGES : (unsigned)IOCSQ_LOOKS;
    if (how & IOCSQ_ATOMIC && volatile_orders) {
        touches |= how & IOCSQ_WRITES ? (unsigned)IOCSQ_RELEASES : (unsigned)IOCSQ_ACQUIRES;
    }
    return touches;
}

/* The access comes after what it acquires, and before what it releases. */
static void check_access(const void *at, size_t size, unsigned how, unsigned touches,
                         const void *place) {
    for (const char *word = word_of(at); word < (const char *)at + size; word += WORD) {
        iocsq_touch(word, touches & ~(unsigned)IOCSQ_RELEASES);
    }
    iocsq_access(at, size, how, place);
    if (touches & IOCSQ_RELEASES) {
        iocsq_release(word_of(at));
    }
}

static void check(const void *at, size_t size, unsigned how, const void *place) {
    if (!is_shared(at, how, place)) {
        iocsq_access(at, size, how, place);
        return;
    }
    if (iocsq_task_count() > 1) {
        iocsq_point();
    }
    check_access(at, size, how, touches_of_volatile(how), place);
}

/* A DPC may come after its memory was freed. */
static void expect_memory(const void *at) {
    if (iocsq_own.is_processor) {
        iocsq_expect_not_freed(at);
    }
}

/* Threads in turns have their own errno at one address, which each switch keeps for them. */
static bool is_checked(const void *at) {
    return iocsq_checks_races() && !iocsq_own.hushed && !iocsq_is_own_stack(at) && at != &errno;
}

/* One is about to be made, of this many bytes: plain, or volatile. */
static void access_memory(const volatile void *of, size_t size, unsigned how, const void *place) {
    const void *at = (const void *)(uintptr_t)of;
    if (how & IOCSQ_WRITES) {
        iocsq_note_write(at, size);
    }
    expect_memory(at);
    if (is_checked(at)) {
        check(at, size, how, place);
    }
}

/* The IRP at whose Cancel or CancelRoutine the driver looks, which iocsq changes; null: none. */
static struct iocsq_irp *looked_at(const char *at, size_t size) {
    bool is_flag = size == sizeof(BOOLEAN);
    return is_flag || size == sizeof(PDRIVER_CANCEL)
               ? iocsq_irp_at(at - (is_flag ? offsetof(IRP, Cancel) : offsetof(IRP, CancelRoutine)))
               : NULL;
}

/* The driver looks. If it is at Irp->Cancel, a cancel may come just before. */
static void look_at(struct iocsq_irp *i, const char *at, size_t size, unsigned how,
                    const void *place) {
    if (size == sizeof(BOOLEAN)) {
        iocsq_hand_look(i);
    }
    expect_memory(at);
    iocsq_touch(i, IOCSQ_LOOKS);
    if (is_checked(at)) {
        iocsq_access(at, size, how, place);
    }
}

static void read_memory(const volatile void *of, size_t size, unsigned how, const void *place) {
    const char *at = (const char *)(uintptr_t)of;
    struct iocsq_irp *i = looked_at(at, size);
    if (i) {
        look_at(i, at, size, how, place);
    } else {
        access_memory(at, size, how, place);
    }
}

/* ---- Atomic operations, which the calls make: in C, reads of Irp->Cancel are among them ---- */
static void access_atomic(const volatile void *of, size_t size, enum atomic did, int order,
                          const void *place) {
    const void *at = (const void *)(uintptr_t)of;
    bool writes = did != LOADED;
    bool acquires = order != __ATOMIC_RELAXED && order != __ATOMIC_RELEASE;
    bool releases = writes && order != __ATOMIC_RELAXED && order != __ATOMIC_ACQUIRE &&
                    order != __ATOMIC_CONSUME;
    unsigned touches = (writes ? (unsigned)IOCSQ_CHANGES : 0) |
                       (acquires ? (unsigned)IOCSQ_ACQUIRES : 0) |
                       (releases ? (unsigned)IOCSQ_RELEASES : 0);
    expect_memory(at);
    if (is_checked(at)) {
        unsigned how = IOCSQ_ATOMIC | (writes ? (unsigned)IOCSQ_WRITES : 0);
        check_access(at, size, how, touches, place);
    }
}

/* A load may be a look at Irp->Cancel. An interlocked call has its point before it. */
static void load_atomic(const volatile void *of, size_t size, int order, const void *place) {
    const char *at = (const char *)(uintptr_t)of;
    struct iocsq_irp *i = looked_at(at, size);
    if (i) {
        look_at(i, at, size, IOCSQ_ATOMIC, place);
    } else {
        access_atomic(of, size, LOADED, order, place);
    }
}

void __tsan_init(void) {
    sees = true;
}

/* As KeMemoryBarrier: all fences are in one order. */
void __tsan_atomic_thread_fence(int order) {
    iocsq_touch(&sees, order == __ATOMIC_SEQ_CST ? (unsigned)IOCSQ_SYNC : (unsigned)IOCSQ_CHANGES);
    __atomic_thread_fence(__ATOMIC_SEQ_CST);
}
void __tsan_atomic_signal_fence(int order) {
    (void)order;
}
#endif
