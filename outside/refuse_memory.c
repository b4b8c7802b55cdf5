/*
 * Preloaded into a program: refuses calls of its for memory.
 *
 * REFUSE_AT=N refuses its Nth call of malloc or realloc, from 0 on, and REFUSE_ALL=1 each later one
 * too. REPORT is the number of a descriptor: a byte is written to it for each refused call, and
 * with SIZES=1 the size of each call on a line of its own.
 */
#define _GNU_SOURCE
#include <errno.h>
#include <stdio.h>
#include <stdlib.h>
#include <unistd.h>

/* glibc's own, under which a program's calls of malloc and realloc stand. */
extern void *__libc_malloc(size_t size);
extern void *__libc_realloc(void *block, size_t size);

static long calls;
static long refused_at = -1;
static int refuses_all, reports_sizes, report = -1, is_ready;

static long number_of(const char *name)
{
    const char *text = getenv(name);

    return text != NULL ? atol(text) : -1;
}

/* Calls before this one are the loader's, and are served. */
__attribute__((constructor)) static void begin(void)
{
    refused_at = number_of("REFUSE_AT");
    refuses_all = getenv("REFUSE_ALL") != NULL;
    reports_sizes = getenv("SIZES") != NULL;
    report = (int)number_of("REPORT");
    is_ready = 1;
}

static void write_text(const char *text, size_t length)
{
    if (report >= 0 && write(report, text, length) < 0)
        report = -1;
}

static void report_size(size_t size)
{
    char text[32];
    int length = snprintf(text, sizeof text, "%zu\n", size);

    if (length > 0)
        write_text(text, (size_t)length);
}

static int is_refused(size_t size)
{
    long call;

    if (!is_ready)
        return 0;
    if (reports_sizes)
        report_size(size);
    call = __atomic_fetch_add(&calls, 1, __ATOMIC_SEQ_CST);
    if (refused_at < 0 || (refuses_all ? call < refused_at : call != refused_at))
        return 0;
    write_text("x", 1);
    errno = ENOMEM;
    return 1;
}

void *malloc(size_t size)
{
    return is_refused(size) ? NULL : __libc_malloc(size);
}

void *realloc(void *block, size_t size)
{
    return is_refused(size) ? NULL : __libc_realloc(block, size);
}
