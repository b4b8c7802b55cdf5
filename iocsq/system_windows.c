/* Windows. Its names are those of iocsq.h too, so this file includes none of iocsq's that have
 * them. */
#include "contexts.h"
#include "system.h"

#ifdef _WIN32
#define WIN32_LEAN_AND_MEAN
#include <windows.h>

#include <stdlib.h>
#include <string.h>

enum { MILLISECOND = 1000000, SECOND = 1000000000 };
enum { STACK = 1 << 23 }; /* of a thread, as on Linux */

/* ---- Threads ---- */
void iocsq_begin_mutex(struct iocsq_mutex *mutex) {
    mutex->lock = NULL;
}

static SRWLOCK *lock_of(struct iocsq_mutex *mutex) {
    return (SRWLOCK *)(void *)mutex;
}

void iocsq_lock(struct iocsq_mutex *mutex) {
    AcquireSRWLockExclusive(lock_of(mutex));
}

bool iocsq_try_lock(struct iocsq_mutex *mutex) {
    return TryAcquireSRWLockExclusive(lock_of(mutex));
}

void iocsq_unlock(struct iocsq_mutex *mutex) {
    ReleaseSRWLockExclusive(lock_of(mutex));
}

void iocsq_begin_condition(struct iocsq_condition *condition) {
    condition->variable = NULL;
}

void iocsq_end_condition(struct iocsq_condition *condition) {
    (void)condition;
}

static CONDITION_VARIABLE *variable_of(struct iocsq_condition *condition) {
    return (CONDITION_VARIABLE *)(void *)condition;
}

void iocsq_wait(struct iocsq_condition *condition, struct iocsq_mutex *mutex) {
    SleepConditionVariableSRW(variable_of(condition), lock_of(mutex), INFINITE, 0);
}

bool iocsq_wait_until(struct iocsq_condition *condition, struct iocsq_mutex *mutex, uint64_t time) {
    uint64_t now = iocsq_time(), left = time > now ? (time - now) / MILLISECOND + 1 : 0;
    DWORD milliseconds = left < INFINITE ? (DWORD)left : INFINITE - 1;
    SleepConditionVariableSRW(variable_of(condition), lock_of(mutex), milliseconds, 0);
    return iocsq_time() >= time;
}

void iocsq_wake(struct iocsq_condition *condition) {
    WakeConditionVariable(variable_of(condition));
}

struct iocsq_system_thread {
    HANDLE handle;
    void *(*start)(void *);
    void *context;
};

/* By this one that ends is told from one that the system ends. */
enum { ENDED = 1000 };

static DWORD WINAPI run_thread(void *of) {
    const struct iocsq_system_thread *thread = of;
    thread->start(thread->context);
    return ENDED;
}

struct iocsq_system_thread *iocsq_begin_thread(void *(*start)(void *), void *context) {
    struct iocsq_system_thread *thread = malloc(sizeof *thread);
    if (thread) {
        thread->start = start;
        thread->context = context;
        thread->handle = CreateThread(NULL, STACK, run_thread, thread,
                                      STACK_SIZE_PARAM_IS_A_RESERVATION, NULL);
    }
    if (!thread || !thread->handle) {
        iocsq_fail("a thread wasn't started");
    }
    return thread;
}

/* Wine ends a thread by itself whose stack is all taken; Windows ends the program then. */
void iocsq_join_thread(struct iocsq_system_thread *thread) {
    DWORD status;
    WaitForSingleObject(thread->handle, INFINITE);
    if (!GetExitCodeThread(thread->handle, &status) || status != ENDED) {
        iocsq_write_error("iocsq: a thread took all of its stack\n");
        iocsq_exit(IOCSQ_CRASHED);
    }
    CloseHandle(thread->handle);
    free(thread);
}

void iocsq_end_thread(void) {
    ExitThread(ENDED);
}

void iocsq_let_others_run(void) {
    SwitchToThread();
}

/* ---- Time ---- */
uint64_t iocsq_clock(void) {
    LARGE_INTEGER now, frequency;
    QueryPerformanceCounter(&now);
    QueryPerformanceFrequency(&frequency);
    uint64_t count = (uint64_t)now.QuadPart, of = (uint64_t)frequency.QuadPart;
    return count / of * SECOND + count % of * SECOND / of;
}

uint64_t iocsq_time(void) {
    return iocsq_clock();
}

void iocsq_sleep(uint64_t nanoseconds) {
    Sleep((DWORD)((nanoseconds + MILLISECOND - 1) / MILLISECOND));
}

/* ---- Memory ---- */
void *iocsq_map(size_t size, const char *failure) {
    void *made = VirtualAlloc(NULL, size, MEM_RESERVE | MEM_COMMIT, PAGE_READWRITE);
    if (!made) {
        iocsq_fail("%s", failure);
    }
    return made;
}

void *iocsq_map_shared(size_t size, const char *failure) {
    return iocsq_map(size, failure);
}

void iocsq_unmap(void *at, size_t size) {
    (void)size;
    VirtualFree(at, 0, MEM_RELEASE);
}

/* Of the linker. */
extern char __data_start__[], __data_end__[], __bss_start__[], __bss_end__[];

void iocsq_find_variables(struct iocsq_part parts[IOCSQ_PARTS]) {
    struct iocsq_part data = { __data_start__, (size_t)(__data_end__ - __data_start__) };
    struct iocsq_part bss = { __bss_start__, (size_t)(__bss_end__ - __bss_start__) };
    parts[0] = data;
    parts[1] = bss;
}

/* The system notes the stack of the present fiber as that of the thread. */
bool iocsq_is_on_thread_stack(const void *at) {
    ULONG_PTR from, to;
    GetCurrentThreadStackLimits(&from, &to);
    return (uintptr_t)at - from < to - from;
}

/* ---- Ends ---- */
/* What a search has of its own, as it goes on in this process: it is no variable of the program,
 * which it saves and gives back. */
struct apart {
    void *back[5];
    const struct iocsq_variables *before;
    DWORD thread;
    volatile LONG64 end; /* of its time, by GetTickCount64; 0: none */
    volatile LONG is_inside;
    int status;
};
static struct apart *apart; /* null: nothing was limited or run so */
static bool inside;         /* in iocsq_run_apart */

static DWORD WINAPI watch(void *of);

/* Begins the thread that watches the time. */
static struct apart *begin_apart(void) {
    if (!apart) {
        apart = calloc(1, sizeof *apart);
        HANDLE watcher = apart ? CreateThread(NULL, 0, watch, apart, 0, NULL) : NULL;
        if (!watcher) {
            iocsq_fail("no memory for a run");
        }
        CloseHandle(watcher);
    }
    return apart;
}

int iocsq_run_apart(void (*act)(void *of), void *of) {
    struct apart *a = begin_apart();
    fflush(NULL);
    iocsq_catch_bad_addresses();
    a->before = iocsq_save_variables();
    a->thread = GetCurrentThreadId();
    a->status = 0;
    if (__builtin_setjmp(a->back) == 0) {
        inside = true;
        act(of);
    }
    iocsq_limit(0);
    a = apart;
    iocsq_forget_run(a->before);
    free((void *)(uintptr_t)a->before);
    return a->status;
}

void iocsq_exit(int status) {
    if (inside && GetCurrentThreadId() == apart->thread) {
        apart->status = status;
        iocsq_leave_contexts(apart->back);
    }
    TerminateProcess(GetCurrentProcess(), (UINT)status);
    abort();
}

void iocsq_abort(void) {
    iocsq_exit(IOCSQ_ABORTED);
}

void iocsq_stop(void) {
    DebugBreak();
}

void iocsq_write_error(const char *text) {
    fputs(text, stderr);
    fflush(stderr);
}

static CONTEXT *bad; /* where the program was as it used a bad address */

static LONG CALLBACK on_exception(EXCEPTION_POINTERS *of) {
    DWORD code = of->ExceptionRecord->ExceptionCode;
    if (code == EXCEPTION_ACCESS_VIOLATION || code == EXCEPTION_IN_PAGE_ERROR ||
        code == EXCEPTION_STACK_OVERFLOW) {
        bad = of->ContextRecord;
        iocsq_ask_for_policy();
        iocsq_report_bad_address();
        iocsq_exit(IOCSQ_CRASHED);
    }
    return EXCEPTION_CONTINUE_SEARCH;
}

void iocsq_catch_bad_addresses(void) {
    static bool caught;
    if (!caught) {
        caught = true;
        AddVectoredExceptionHandler(1, on_exception);
    }
}

/* ---- Limits of time ---- */
static void end_search(void) {
    iocsq_report_time_over();
}

/* Lets the thread that searches report it, which alone can go on after the search; the others'
 * waits are the system's, in which no thread can be reached. */
static bool send_to_search(const struct apart *a) {
    CONTEXT at = { .ContextFlags = CONTEXT_CONTROL };
    HANDLE thread = OpenThread(THREAD_ALL_ACCESS, FALSE, a->thread);
    bool sent = thread && SuspendThread(thread) != (DWORD)-1 && GetThreadContext(thread, &at);
    if (sent) {
        at.Rip = (DWORD64)(uintptr_t)end_search;
        at.Rsp = (at.Rsp - 256) / 16 * 16 - 8; /* as a call has it, below what a leaf may use */
        sent = SetThreadContext(thread, &at);
    }
    ResumeThread(thread);
    CloseHandle(thread);
    return sent;
}

static DWORD WINAPI watch(void *of) {
    struct apart *a = of;
    for (;;) {
        Sleep(200);
        LONG64 end = a->end;
        if (end && (LONG64)GetTickCount64() > end) {
            a->end = 0;
            if (!inside || !send_to_search(a)) {
                iocsq_report_time_over();
            }
        }
    }
}

void iocsq_limit(unsigned seconds) {
    begin_apart()->end = seconds ? (LONG64)GetTickCount64() + 1000 * (LONG64)seconds : 0;
}

/* ---- Places ---- */
/* The stack of the place where the program used a bad address, below which a handler runs. */
static int frames_of(CONTEXT at, void **frames, int most) {
    int count = 0;
    while (count < most && at.Rip) {
        DWORD64 base, established;
        void *data;
        frames[count++] = (void *)at.Rip;
        RUNTIME_FUNCTION *function = RtlLookupFunctionEntry(at.Rip, &base, NULL);
        if (function) {
            RtlVirtualUnwind(UNW_FLAG_NHANDLER, base, at.Rip, function, &at, &data, &established,
                             NULL);
        } else {
            at.Rip = *(DWORD64 *)at.Rsp;
            at.Rsp += sizeof(DWORD64);
        }
    }
    return count;
}

int iocsq_frames(void **frames, int most) {
    if (bad) { /* one that isn't in the program comes before the exact place */
        frames[0] = NULL;
        return 1 + frames_of(*bad, frames + 1, most - 1);
    }
    return RtlCaptureStackBackTrace(0, (DWORD)most, frames, NULL);
}

static const IMAGE_NT_HEADERS *headers(void) {
    return (const IMAGE_NT_HEADERS *)(const void *)(__ImageBase +
                                                    ((const IMAGE_DOS_HEADER *)(const void *)
                                                         __ImageBase)
                                                        ->e_lfanew);
}

bool iocsq_is_in_program(const void *at) {
    return (uintptr_t)at - (uintptr_t)__ImageBase < headers()->OptionalHeader.SizeOfImage;
}

/* The first section has all code. An address of it counts from its begin, wherever the program was
 * loaded. */
static uintptr_t code_begin(void) {
    return (uintptr_t)__ImageBase + IMAGE_FIRST_SECTION(headers())->VirtualAddress;
}

enum { COMMAND = 2048, ADDRESS = 24, TRIES = 1000, PAUSE = 10, WAIT = 10000 };
#define LAST "7fffffff"

/* The tool of binutils, called in the program's folder; and last an address that it doesn't know.
 * An empty name is of no tool: each of the words that follow would be looked for as a program. */
static bool make_command(char *command, char *folder, const uintptr_t *addresses, size_t count) {
    const char *tool = getenv("IOCSQ_ADDR2LINE");
    DWORD length = GetModuleFileNameA(NULL, folder, MAX_PATH);
    char *name = length < MAX_PATH ? strrchr(folder, '\\') : NULL;
    if (!name || (tool && !*tool)) {
        return false;
    }
    *name++ = '\0';
    int used = snprintf(command, COMMAND, "%s -a -f -i -j .text -e %s", tool ? tool : "addr2line",
                        name);
    for (size_t at = 0; at < count && used < COMMAND - 2 * ADDRESS; at++) {
        used += snprintf(command + used, (size_t)(COMMAND - used), " 0x%llx",
                         (unsigned long long)(addresses[at] - code_begin()));
    }
    snprintf(command + used, (size_t)(COMMAND - used), " 0x%s", LAST);
    return true;
}

/* Calls it; what it prints goes to this file. */
static bool run_tool(char *command, const char *folder, HANDLE to) {
    STARTUPINFOA begun = { .cb = sizeof begun, .dwFlags = STARTF_USESTDHANDLES, .hStdOutput = to };
    PROCESS_INFORMATION made;
    begun.hStdInput = begun.hStdError = INVALID_HANDLE_VALUE;
    if (!CreateProcessA(NULL, command, NULL, NULL, TRUE, 0, NULL, folder, &begun,
                        &made)) {
        return false;
    }
    WaitForSingleObject(made.hProcess, WAIT);
    CloseHandle(made.hThread);
    CloseHandle(made.hProcess);
    return true;
}

/* Whether the line of the last address is there. */
static bool is_whole(FILE *from) {
    char line[COMMAND];
    rewind(from);
    while (fgets(line, sizeof line, from)) {
        if (strstr(line, LAST)) {
            return true;
        }
    }
    return false;
}

/* Under wine nobody can wait for a program of Linux. */
static void await_end(FILE *from) {
    for (int tries = 0; tries < TRIES && !is_whole(from); tries++) {
        Sleep(PAUSE);
    }
    rewind(from);
}

FILE *iocsq_begin_addr2line(const uintptr_t *addresses, size_t count) {
    SECURITY_ATTRIBUTES inherited = { sizeof inherited, NULL, TRUE };
    char command[COMMAND], folder[MAX_PATH], path[MAX_PATH];
    if (!make_command(command, folder, addresses, count) || !GetTempPathA(MAX_PATH, path) ||
        !GetTempFileNameA(path, "csq", 0, path)) {
        return NULL;
    }
    HANDLE to = CreateFileA(path, GENERIC_WRITE, FILE_SHARE_READ | FILE_SHARE_WRITE, &inherited,
                            CREATE_ALWAYS, FILE_ATTRIBUTE_TEMPORARY, NULL);
    bool begun = to != INVALID_HANDLE_VALUE && run_tool(command, folder, to);
    CloseHandle(to);
    FILE *from = fopen(path, "rD"); /* which deletes it as it is closed */
    if (from && begun) {
        await_end(from);
    }
    return from;
}

void iocsq_end_addr2line(FILE *from) {
    if (from) {
        fclose(from);
    }
}
#endif
