/* The check of data races by itself, access by access: each case is a process, and ends with a
 * report where it is a race. */
#include "internal.h"

#include <errno.h>
#include <stdio.h>
#include <stdlib.h>

/* As a driver calls them. */
void __tsan_init(void);
void __tsan_read_write4(void *at);
void *__tsan_memset(void *to, int value, size_t size);
void *__tsan_memmove(void *to, const void *from, size_t size);
unsigned int __tsan_atomic32_load(const volatile unsigned int *at, int order);
void __tsan_atomic32_store(volatile unsigned int *at, unsigned int value, int order);

static char cells[64] __attribute__((aligned(64)));
static unsigned int word __attribute__((aligned(64)));
static uint64_t lock __attribute__((aligned(64))), nothing __attribute__((aligned(64)));
static ULONG level = 1;

static void reads(size_t from, size_t to) {
    iocsq_access(cells + from, to - from, IOCSQ_READS, cells);
}
static void writes(size_t from, size_t to) {
    iocsq_access(cells + from, to - from, IOCSQ_WRITES, cells + 1);
}
static void changes(size_t from, size_t to) {
    iocsq_access(cells + from, to - from, IOCSQ_WRITES | IOCSQ_ATOMIC, cells + 2);
}
static void looks(size_t from, size_t to) {
    iocsq_access(cells + from, to - from, IOCSQ_ATOMIC, cells + 3);
}
/* From now on it is another that acts, whom nothing orders after those before. */
static void other(void) {
    iocsq_begin_part(&nothing);
}

/* ---- Races ---- */
static void two_writes(void) {
    writes(0, 4), other(), writes(0, 4);
}
static void beside_another(void) { /* a later access to other bytes doesn't stand for the first */
    writes(0, 4), writes(4, 8), other(), writes(0, 4);
}
static void before_a_change(void) { /* nor does one on purpose */
    writes(0, 4), changes(0, 4), other(), changes(0, 4);
}
static void last_byte(void) {
    writes(2, 3), other(), writes(0, 3);
}
static void next_cell(void) {
    writes(4, 12), other(), writes(8, 9);
}
static void after_the_release(void) {
    iocsq_touch(&lock, IOCSQ_SYNC), writes(0, 4), other();
    iocsq_touch(&lock, IOCSQ_SYNC), writes(0, 4);
}
static void look_at_the_ended(void) {
    iocsq_end_memory(cells, 8, "ExFreePool", cells), other(), looks(0, 4);
}
static void beside_new_memory(void) {
    writes(4, 8), iocsq_begin_memory(cells, 4), other(), writes(4, 8);
}
static void flag_twice(void) {
    reads(0, 4), other(), writes(0, 4), writes(0, 4);
}
static void part_of_a_flag(void) {
    reads(0, 4), other(), writes(0, 8);
}
static void relaxed(void) {
    writes(0, 4), __tsan_atomic32_store(&word, 1, __ATOMIC_RELEASE), other();
    __tsan_atomic32_load(&word, __ATOMIC_RELAXED), writes(0, 4);
}
static void compound(void) {
    __tsan_read_write4(cells), other(), __tsan_read_write4(cells);
}
static void filled(void) {
    __tsan_memset(cells, 1, 8), other(), writes(0, 4);
}
static void copied_from(void) {
    __tsan_memmove(cells + 16, cells, 8), other(), writes(0, 8), writes(0, 8);
}

/* ---- None ---- */
static void other_bytes(void) {
    writes(0, 3), other(), writes(3, 4), other(), writes(8, 9);
}
static void released(void) {
    writes(0, 4), iocsq_touch(&lock, IOCSQ_SYNC), other();
    iocsq_touch(&lock, IOCSQ_SYNC), writes(0, 4);
}
static void acquired(void) {
    writes(0, 4), __tsan_atomic32_store(&word, 1, __ATOMIC_RELEASE), other();
    __tsan_atomic32_load(&word, __ATOMIC_ACQUIRE), writes(0, 4);
}
static void on_purpose(void) {
    changes(0, 4), other(), looks(0, 4), changes(0, 4), other(), looks(0, 4);
}
static void flag(void) {
    reads(0, 4), other(), writes(0, 4);
}
static void published(void) { /* written whole, then read in part */
    writes(0, 8), writes(0, 4), changes(8, 16), other(), reads(8, 16), reads(0, 4);
}
static void flag_of_new_memory(void) {
    flag(), iocsq_begin_memory(cells, 8), flag();
}
static void new_memory(void) {
    iocsq_end_memory(cells, 8, "ExFreePool", cells), iocsq_begin_memory(cells, 8), other();
    writes(0, 8);
}
static void own_errno(void) {
    __tsan_memset(&errno, 0, sizeof errno), other(), __tsan_memset(&errno, 0, sizeof errno);
}
static void unreported(void) {
    level = 3;
}

struct test {
    const char *name;
    void (*run)(void);
    bool is_race;
};
#define RACE(of) { #of, of, true }
#define NONE(of) { #of, of, false }
static const struct test cases[] = {
    RACE(two_writes),        RACE(beside_another),    RACE(before_a_change), RACE(last_byte),
    RACE(next_cell),         RACE(after_the_release), RACE(look_at_the_ended),
    RACE(beside_new_memory), RACE(flag_twice),        RACE(part_of_a_flag),  RACE(relaxed),
    RACE(compound),          RACE(filled),            RACE(copied_from),
    NONE(other_bytes),       NONE(released),          NONE(acquired),        NONE(on_purpose),
    NONE(flag),              NONE(published),         NONE(flag_of_new_memory),
    NONE(new_memory),        NONE(own_errno),         NONE(unreported),
};

/* In a process of its own. */
static int run(const struct test *of) {
    if (of->run == unreported) {
        of->run();
    }
    IocsqRaces(level);
    __tsan_init();
    IocsqTurns(1);
    if (iocsq_is_point(cells) != (level > 1)) {
        return EXIT_FAILURE;
    }
    (level == 3 ? two_writes : of->run)();
    iocsq_point();
    return EXIT_SUCCESS;
}

static void run_apart(void *of) {
    iocsq_exit(run(of));
}

int main(void) {
    for (size_t at = 0; at < sizeof cases / sizeof *cases; at++) {
        int status = iocsq_run_apart(run_apart, (void *)(uintptr_t)&cases[at]);
        if (status != (cases[at].is_race ? IOCSQ_DISAGREES : 0)) {
            printf("%s: status %d\n", cases[at].name, status);
            return EXIT_FAILURE;
        }
    }
    printf("%zu cases\n", sizeof cases / sizeof *cases);
}
