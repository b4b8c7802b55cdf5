/* Eventfds, as the tests of csq_requests.h look at them. Windows has none. */
#ifndef EVENTFDS_H
#define EVENTFDS_H

#include <stdint.h>

#ifdef _WIN32
enum { HAS_EVENTFDS = 0 };

static inline uint32_t becomes_readable(int fd, int milliseconds) {
    return fd >= 0 && milliseconds < 0;
}
#else
#include <poll.h>

enum { HAS_EVENTFDS = 1 };

/* Whether one is readable, or becomes so in this time. */
static inline uint32_t becomes_readable(int fd, int milliseconds) {
    struct pollfd one = { fd, POLLIN, 0 };
    return (uint32_t)poll(&one, 1, milliseconds);
}
#endif

static inline uint32_t is_readable(int fd) {
    return becomes_readable(fd, 0);
}

#endif
