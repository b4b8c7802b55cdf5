/* What the address sanitizer is told of memory that isn't the driver's any more. Without it:
 * nothing. */
#ifndef IOCSQ_POISON_H
#define IOCSQ_POISON_H

#if defined(__SANITIZE_ADDRESS__)
#define IOCSQ_POISONS 1
#elif defined(__has_feature)
#if __has_feature(address_sanitizer)
#define IOCSQ_POISONS 1
#endif
#endif
#ifdef IOCSQ_POISONS
#include <sanitizer/asan_interface.h>
#define POISON(at, size) __asan_poison_memory_region(at, size)
#define UNPOISON(at, size) __asan_unpoison_memory_region(at, size)
#else
#define POISON(at, size) ((void)(at), (void)(size))
#define UNPOISON(at, size) ((void)(at), (void)(size))
#endif

enum { IOCSQ_GONE = 0xA5 }; /* each byte of what is gone */

#endif
