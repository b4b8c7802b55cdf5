/* The calls that the compiler puts before each access to memory (-fsanitize=thread), for a file
 * that says by TSAN what they are called, and defines what they lead to. */
#include <stddef.h>
#include <stdint.h>
#include <string.h>

#pragma GCC diagnostic ignored "-Wmissing-prototypes" /* the compiler declares them */

/* One is about to be made, at a place of the code: plain, or volatile. */
static void read_memory(const volatile void *of, size_t size, unsigned how, const void *place);
static void access_memory(const volatile void *of, size_t size, unsigned how, const void *place);
/* An atomic operation, which the call makes. Those that only add commute with each other. */
enum atomic { LOADED, CHANGED, ADDED };
static void load_atomic(const volatile void *of, size_t size, int order, const void *place);
static void access_atomic(const volatile void *of, size_t size, enum atomic did, int order,
                          const void *place);

#define PLACE __builtin_return_address(0)
/* Plain, unaligned and volatile accesses; volatile is what Irp->Cancel is to C++. */
#define ACCESS(name, size, call, how) \
    void TSAN(name##size)(void *at) { call(at, size, how, PLACE); }
#define ACCESSES(name, call, how) \
    ACCESS(name, 1, call, how) ACCESS(name, 2, call, how) ACCESS(name, 4, call, how) \
    ACCESS(name, 8, call, how) ACCESS(name, 16, call, how)
ACCESSES(read, read_memory, IOCSQ_READS)
ACCESSES(write, access_memory, IOCSQ_WRITES)
ACCESSES(read_write, access_memory, IOCSQ_WRITES)
ACCESSES(unaligned_read, read_memory, IOCSQ_READS)
ACCESSES(unaligned_write, access_memory, IOCSQ_WRITES)
ACCESSES(unaligned_read_write, access_memory, IOCSQ_WRITES)
ACCESSES(volatile_read, read_memory, IOCSQ_ATOMIC)
ACCESSES(volatile_write, access_memory, IOCSQ_WRITES | IOCSQ_ATOMIC)
ACCESSES(unaligned_volatile_read, read_memory, IOCSQ_ATOMIC)
ACCESSES(unaligned_volatile_write, access_memory, IOCSQ_WRITES | IOCSQ_ATOMIC)

void TSAN(func_entry)(void *caller) {
    (void)caller;
}
void TSAN(func_exit)(void) {
}

/* C++: the pointer to an object's virtual functions. */
void TSAN(vptr_read)(void **at) {
    access_memory(at, sizeof *at, IOCSQ_READS, PLACE);
}
void TSAN(vptr_update)(void **at, void *value) {
    if (*at != value) {
        access_memory(at, sizeof *at, IOCSQ_WRITES, PLACE);
    }
}
void TSAN(read_range)(void *at, size_t size) {
    access_memory(at, size, IOCSQ_READS, PLACE);
}
void TSAN(write_range)(void *at, size_t size) {
    access_memory(at, size, IOCSQ_WRITES, PLACE);
}

/* In the place of the C library's: some compilers call these, and for others a file is compiled
 * with memcpy and so on defined as these. */
#define MOVES(name)                                              \
    void *TSAN(name)(void *to, const void *from, size_t size) {  \
        access_memory(from, size, IOCSQ_READS, PLACE);           \
        access_memory(to, size, IOCSQ_WRITES, PLACE);            \
        return memmove(to, from, size);                          \
    }
MOVES(memmove)
MOVES(memcpy)
void *TSAN(memset)(void *to, int value, size_t size) {
    access_memory(to, size, IOCSQ_WRITES, PLACE);
    return memset(to, value, size);
}

/* Atomic operations, which the calls make. */
#define FETCH(bits, T, name, builtin, did)                               \
    T TSAN(atomic##bits##_##name)(volatile T *at, T value, int order) {  \
        access_atomic(at, sizeof *at, did, order, PLACE);                \
        return builtin(at, value, __ATOMIC_SEQ_CST);                     \
    }
#define ATOMIC(bits, T)                                                                        \
    T TSAN(atomic##bits##_load)(const volatile T *at, int order) {                             \
        load_atomic(at, sizeof *at, order, PLACE);                                             \
        return __atomic_load_n(at, __ATOMIC_SEQ_CST);                                          \
    }                                                                                          \
    void TSAN(atomic##bits##_store)(volatile T *at, T value, int order) {                      \
        access_atomic(at, sizeof *at, CHANGED, order, PLACE);                                  \
        __atomic_store_n(at, value, __ATOMIC_SEQ_CST);                                         \
    }                                                                                          \
    FETCH(bits, T, exchange, __atomic_exchange_n, CHANGED)                                     \
    FETCH(bits, T, fetch_add, __atomic_fetch_add, ADDED)                                       \
    FETCH(bits, T, fetch_sub, __atomic_fetch_sub, ADDED)                                       \
    FETCH(bits, T, fetch_and, __atomic_fetch_and, CHANGED)                                     \
    FETCH(bits, T, fetch_or, __atomic_fetch_or, CHANGED)                                       \
    FETCH(bits, T, fetch_xor, __atomic_fetch_xor, CHANGED)                                     \
    FETCH(bits, T, fetch_nand, __atomic_fetch_nand, CHANGED)                                   \
    int TSAN(atomic##bits##_compare_exchange_strong)(volatile T *at, T *expected, T value,     \
                                                     int order, int otherwise) {               \
        (void)otherwise;                                                                       \
        access_atomic(at, sizeof *at, *at == *expected ? CHANGED : LOADED, order, PLACE);      \
        return __atomic_compare_exchange_n(at, expected, value, 0, __ATOMIC_SEQ_CST,           \
                                           __ATOMIC_SEQ_CST);                                  \
    }                                                                                          \
    int TSAN(atomic##bits##_compare_exchange_weak)(volatile T *at, T *expected, T value,       \
                                                   int order, int otherwise) {                 \
        return TSAN(atomic##bits##_compare_exchange_strong)(at, expected, value, order,        \
                                                            otherwise);                        \
    }                                                                                          \
    T TSAN(atomic##bits##_compare_exchange_val)(volatile T *at, T expected, T value,           \
                                                int order, int otherwise) {                    \
        TSAN(atomic##bits##_compare_exchange_strong)(at, &expected, value, order, otherwise);  \
        return expected;                                                                       \
    }
ATOMIC(8, unsigned char)
ATOMIC(16, unsigned short)
ATOMIC(32, unsigned int)
ATOMIC(64, uint64_t)
