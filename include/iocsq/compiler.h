/* Of iocsq.h: what C has no words for, by gcc and clang, and by MSVC, which has no atomic calls
 * that take each type. */
#ifndef IOCSQ_COMPILER_H
#define IOCSQ_COMPILER_H

#ifdef __GNUC__
#define IOCSQ_EXTENSION __extension__
#define IOCSQ_ALIGNED(bytes) __attribute__((aligned(bytes)))
#ifdef _WIN32 /* whose linkers take no weak definition */
#define DECLSPEC_SELECTANY __attribute__((selectany))
#else
#define DECLSPEC_SELECTANY __attribute__((weak))
#endif
#undef __forceinline /* mingw's can't be static */
#define __forceinline __inline__ __attribute__((__always_inline__))
#define IOCSQ_EXCHANGE(to, value) __atomic_exchange_n((to), (value), __ATOMIC_SEQ_CST)
#define IOCSQ_EXCHANGE64 IOCSQ_EXCHANGE
#define IOCSQ_EXCHANGE_POINTER IOCSQ_EXCHANGE
#define IOCSQ_COMPARE(to, value, with) __sync_val_compare_and_swap((to), (with), (value))
#define IOCSQ_COMPARE64 IOCSQ_COMPARE
#define IOCSQ_COMPARE_POINTER IOCSQ_COMPARE
#define IOCSQ_FETCH_ADD(to, value) __atomic_fetch_add((to), (value), __ATOMIC_SEQ_CST)
#define IOCSQ_FETCH_ADD64 IOCSQ_FETCH_ADD
#define IOCSQ_FETCH_OR(to, value) __atomic_fetch_or((to), (value), __ATOMIC_SEQ_CST)
#define IOCSQ_FETCH_AND(to, value) __atomic_fetch_and((to), (value), __ATOMIC_SEQ_CST)
#define IOCSQ_FETCH_XOR(to, value) __atomic_fetch_xor((to), (value), __ATOMIC_SEQ_CST)
#define IOCSQ_ADD(to, value) __atomic_add_fetch((to), (value), __ATOMIC_SEQ_CST)
#define IOCSQ_ADD64 IOCSQ_ADD
#define IOCSQ_LOAD(from) __atomic_load_n((from), __ATOMIC_RELAXED)
#define IOCSQ_LOAD_ACQUIRE(from) __atomic_load_n((from), __ATOMIC_ACQUIRE)
#define IOCSQ_STORE(to, value) __atomic_store_n((to), (value), __ATOMIC_RELAXED)
#define IOCSQ_STORE_RELEASE(to, value) __atomic_store_n((to), (value), __ATOMIC_RELEASE)
#else
#ifdef __cplusplus
extern "C" {
#endif
long _InterlockedExchange(long volatile *, long);
long _InterlockedExchangeAdd(long volatile *, long);
long _InterlockedOr(long volatile *, long);
long _InterlockedAnd(long volatile *, long);
long _InterlockedXor(long volatile *, long);
long _InterlockedCompareExchange(long volatile *, long, long);
long long _InterlockedExchange64(long long volatile *, long long);
long long _InterlockedExchangeAdd64(long long volatile *, long long);
long long _InterlockedCompareExchange64(long long volatile *, long long, long long);
void *_InterlockedExchangePointer(void *volatile *, void *);
void *_InterlockedCompareExchangePointer(void *volatile *, void *, void *);
#ifdef __cplusplus
}
#endif
#pragma intrinsic(_InterlockedExchange, _InterlockedExchangeAdd, _InterlockedOr, _InterlockedAnd, \
                  _InterlockedXor, _InterlockedCompareExchange, _InterlockedExchange64,          \
                  _InterlockedExchangeAdd64, _InterlockedCompareExchange64,                      \
                  _InterlockedExchangePointer, _InterlockedCompareExchangePointer)
#define IOCSQ_EXTENSION
#define IOCSQ_ALIGNED(bytes) /* what is aligned so is allocated so */
#define DECLSPEC_SELECTANY __declspec(selectany)
#define IOCSQ_LONG(call, to, value) ((LONG)call((volatile long *)(to), (long)(value)))
#define IOCSQ_LONG64(call, to, value) ((LONG64)call((volatile long long *)(to), (long long)(value)))
#define IOCSQ_EXCHANGE(to, value) IOCSQ_LONG(_InterlockedExchange, to, value)
#define IOCSQ_EXCHANGE64(to, value) IOCSQ_LONG64(_InterlockedExchange64, to, value)
#define IOCSQ_EXCHANGE_POINTER(to, value) \
    _InterlockedExchangePointer((void *volatile *)(to), (void *)(value))
#define IOCSQ_COMPARE(to, value, with) \
    ((LONG)_InterlockedCompareExchange((volatile long *)(to), (long)(value), (long)(with)))
#define IOCSQ_COMPARE64(to, value, with)                                                  \
    ((LONG64)_InterlockedCompareExchange64((volatile long long *)(to), (long long)(value),    \
                                           (long long)(with)))
#define IOCSQ_COMPARE_POINTER(to, value, with) \
    _InterlockedCompareExchangePointer((void *volatile *)(to), (void *)(value), (void *)(with))
#define IOCSQ_FETCH_ADD(to, value) IOCSQ_LONG(_InterlockedExchangeAdd, to, value)
#define IOCSQ_FETCH_ADD64(to, value) IOCSQ_LONG64(_InterlockedExchangeAdd64, to, value)
#define IOCSQ_FETCH_OR(to, value) IOCSQ_LONG(_InterlockedOr, to, value)
#define IOCSQ_FETCH_AND(to, value) IOCSQ_LONG(_InterlockedAnd, to, value)
#define IOCSQ_FETCH_XOR(to, value) IOCSQ_LONG(_InterlockedXor, to, value)
#define IOCSQ_ADD(to, value) (IOCSQ_FETCH_ADD(to, value) + (LONG)(value))
#define IOCSQ_ADD64(to, value) (IOCSQ_FETCH_ADD64(to, value) + (LONG64)(value))
#define IOCSQ_LOAD(from) (*(from)) /* what is volatile is ordered on x64 (/volatile:ms) */
#define IOCSQ_LOAD_ACQUIRE IOCSQ_LOAD
#define IOCSQ_STORE(to, value) ((void)(*(to) = (value)))
#define IOCSQ_STORE_RELEASE IOCSQ_STORE
#endif

#endif
