/*
 * Preloaded into a program: it reads and writes a byte at a time.
 *
 * READS names the descriptor that is read so, 0 where it isn't set; FAIL_READ=N lets it fail after
 * N bytes, and with INTERRUPTED=1 each read is interrupted once. WRITES names the descriptor that
 * is written so, 1 where it isn't set; FAIL_WRITE=N lets it fail after N bytes, or with
 * TAKES_NOTHING=1 take nothing.
 */
#define _GNU_SOURCE
#include <dlfcn.h>
#include <errno.h>
#include <limits.h>
#include <stdlib.h>
#include <unistd.h>

typedef ssize_t reader(int, void *, size_t);
typedef ssize_t writer(int, const void *, size_t);

static reader *real_read;
static writer *real_write;
static long reads, writes, fails_read_at, fails_write_at, given, taken;
static int is_interrupted, takes_nothing, was_interrupted;

static long number_of(const char *name, long usual)
{
    const char *text = getenv(name);

    return text != NULL ? atol(text) : usual;
}

/* An input has up to a million bytes, so the settings are looked up once. */
__attribute__((constructor)) static void begin(void)
{
    /* ISO C has no cast from a pointer to an object; POSIX says that this one is right. */
    *(void **)&real_read = dlsym(RTLD_NEXT, "read");
    *(void **)&real_write = dlsym(RTLD_NEXT, "write");
    reads = number_of("READS", STDIN_FILENO);
    writes = number_of("WRITES", STDOUT_FILENO);
    fails_read_at = number_of("FAIL_READ", LONG_MAX);
    fails_write_at = number_of("FAIL_WRITE", LONG_MAX);
    is_interrupted = getenv("INTERRUPTED") != NULL;
    takes_nothing = getenv("TAKES_NOTHING") != NULL;
}

ssize_t read(int file, void *bytes, size_t length)
{
    ssize_t got;

    if (file != reads)
        return real_read(file, bytes, length);
    if (given >= fails_read_at) {
        errno = EIO;
        return -1;
    }
    was_interrupted = is_interrupted && !was_interrupted;
    if (was_interrupted) {
        errno = EINTR;
        return -1;
    }
    got = real_read(file, bytes, length > 0);
    given += got > 0 ? (long)got : 0;
    return got;
}

ssize_t write(int file, const void *bytes, size_t length)
{
    ssize_t put;

    if (file != writes)
        return real_write(file, bytes, length);
    if (taken >= fails_write_at) {
        if (takes_nothing)
            return 0;
        errno = EIO;
        return -1;
    }
    put = real_write(file, bytes, length > 0);
    taken += put > 0 ? (long)put : 0;
    return put;
}
