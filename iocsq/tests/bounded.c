/* Every schedule of small scenarios with at most PREEMPTIONS preemptions:
 *
 *     bounded PREEMPTIONS SCENARIO..             each scenario is a file; the last line sums all up
 *     bounded --seconds N PREEMPTIONS SCENARIO.. ends after N seconds, and says what was run
 *     bounded --depth DEPTH RUNS SCENARIO..      RUNS runs of each, by priorities that are drawn
 *     bounded --schedule SCHEDULE SCENARIO       this one schedule alone, as the report of a wrong
 *                                                one names it
 *     bounded --stop CALL --schedule ..          which stops for a debugger (SIGTRAP) as it makes
 *                                                the call of this number
 *
 * It ends with status 0, with that of the first wrong schedule (70 after a report), and with 71
 * where no scenario inserted anything. 2: an argument or a file is wrong.
 *
 * A scenario, of threads 1 to 3 (a line that begins with # says nothing):
 *
 *     open f                 before the threads begin: a file object, named f
 *     1 open g               by thread 1
 *     1 read f r             thread 1 reads from f, and the request is named r; a name isn't needed
 *     1 write f              and writes
 *     1 control f 2 s        a device control with the second code of DriverControls (0x222004 is a
 *                            code itself)
 *     2 cancel r             thread 2 cancels r, once the driver has it
 *     2 wait r               waits until r is completed
 *     3 close f              closes f
 *     3 pause 10             goes on after ten milliseconds
 *     schedule 4:1,9:1       of no thread: this schedule was wrong once, and is run before all
 *                            others. If it isn't one of this test any more, as after a change of
 *                            the driver, a line says so
 *
 * A request to a file object that isn't open, or is being closed, isn't sent. In the end all file
 * objects are closed, and the driver is unloaded. Where its policy says which requests may wait
 * (Waits), each has to end before that, as in patient.c.
 */
#include "levels.h"

enum { THREADS = 3, CALLS = 16, FILES = 8, REQUESTS = 16, NAME = 16, LINE = 256 };
enum { BYTES = 16, LENGTH = 2, PATIENCE = 2000 };

struct file {
    char name[NAME];
    PFILE_OBJECT object; /* null: it isn't open */
};
struct request {
    char name[NAME];
    IOCSQ_REQUEST *sent; /* null: it isn't */
    KEVENT known;        /* signaled once it is sent, or won't be */
    unsigned char buffer[BYTES];
};
struct call;
typedef void CALL(const struct call *call);
struct call {
    CALL *make;
    struct file *file;
    struct request *request;
    ULONG number; /* of a control, or milliseconds */
};
struct thread {
    struct call calls[CALLS];
    uint32_t count;
};

static PDRIVER_OBJECT driver;
static struct file files[FILES];
static struct request requests[REQUESTS];
static struct thread threads[THREADS];
static uint32_t file_count, request_count;
static struct call opened[FILES]; /* before the threads begin */
static uint32_t opened_count;
static char remembered[LINE]; /* the schedule that the scenario names; empty: none */

/* ---- The calls ---- */
static void open_file(const struct call *call) {
    PFILE_OBJECT object = IocsqOpen(driver);
    IocsqShared(call->file, TRUE);
    call->file->object = object; /* null where the driver refuses: it may allow one at a time */
}

static void make_known(IOCSQ_REQUEST *sent, PVOID context) {
    struct request *r = context;
    r->sent = sent;
    KeSetEvent(&r->known, IO_NO_INCREMENT, FALSE);
}

/* The file object to which the request may be sent; then it is made known first. Null: it is being
 * closed. */
static PFILE_OBJECT begin_request(const struct call *call) {
    IocsqShared(call->file, FALSE);
    PFILE_OBJECT file = call->file->object; /* another thread may close it meanwhile */
    if (!file || !IocsqReference(file)) {
        KeSetEvent(&call->request->known, IO_NO_INCREMENT, FALSE);
        return NULL;
    }
    IocsqHandOver(file);
    IocsqShowNext(make_known, call->request);
    return file;
}

static void send_request(const struct call *call, UCHAR major) {
    PFILE_OBJECT file = begin_request(call);
    if (file) {
        IocsqSend(file, major, call->request->buffer, LENGTH);
    }
}

static void read_file(const struct call *call) {
    send_request(call, IRP_MJ_READ);
}

static void write_file(const struct call *call) {
    send_request(call, IRP_MJ_WRITE);
}

static ULONG code_of(ULONG number) {
    if (number > 1000) {
        return number;
    }
    return number <= count_controls() ? DriverControls[number - 1] : (ULONG)ANY_CONTROL;
}

static void control_file(const struct call *call) {
    PFILE_OBJECT file = begin_request(call);
    if (file) {
        IocsqControl(file, code_of(call->number), call->request->buffer, LENGTH, BYTES);
    }
}

static void await_request(struct request *r) {
    KeWaitForSingleObject(&r->known, Executive, KernelMode, FALSE, NULL);
}

static void cancel_request(const struct call *call) {
    await_request(call->request);
    if (call->request->sent) {
        IocsqCancel(call->request->sent);
    }
}

static void wait_for_request(const struct call *call) {
    await_request(call->request);
    if (call->request->sent) {
        IocsqWait(call->request->sent, PATIENCE);
    }
}

static void close_file(const struct call *call) {
    IocsqShared(call->file, TRUE);
    PFILE_OBJECT file = call->file->object;
    call->file->object = NULL;
    if (file) {
        IocsqClose(file);
    }
}

static void pause_thread(const struct call *call) {
    IocsqPause(1000 * call->number);
}

/* ---- A scenario's file ---- */
/* What a call names: a file object, a number, a request. */
static const struct verb {
    const char *name;
    CALL *make;
    bool file, number, request;
} verbs[] = {
    { "open", open_file, true, false, false },
    { "close", close_file, true, false, false },
    { "read", read_file, true, false, true },
    { "write", write_file, true, false, true },
    { "control", control_file, true, true, true },
    { "cancel", cancel_request, false, false, true },
    { "wait", wait_for_request, false, false, true },
    { "pause", pause_thread, false, true, false },
};

struct place {
    const char *path;
    int line;
};

static void refuse(struct place at, const char *what, const char *word) {
    fprintf(stderr, "%s:%d: %s%s%s\n", at.path, at.line, what, word ? ": " : "", word ? word : "");
    exit(2);
}

static const struct verb *find_verb(struct place at, const char *word) {
    for (size_t each = 0; word && each < sizeof verbs / sizeof *verbs; each++) {
        if (strcmp(word, verbs[each].name) == 0) {
            return &verbs[each];
        }
    }
    refuse(at, "not a call", word ? word : "nothing");
    return NULL;
}

static const char *next_word(void) {
    return strtok(NULL, " \t\r\n");
}

static void copy_name(struct place at, char *to, const char *word) {
    if (strlen(word) >= NAME) {
        refuse(at, "a name of more than 15 characters", word);
    }
    strcpy(to, word);
}

static struct file *file_of(struct place at, const char *word, bool opens) {
    if (!word) {
        refuse(at, "the name of a file object is missing", NULL);
    }
    for (uint32_t each = 0; each < file_count; each++) {
        if (strcmp(files[each].name, word) == 0) {
            return &files[each];
        }
    }
    if (!opens) {
        refuse(at, "no line before opens this file object", word);
    }
    if (file_count == FILES) {
        refuse(at, "more than 8 file objects", NULL);
    }
    copy_name(at, files[file_count].name, word);
    return &files[file_count++];
}

/* By its name, which may stand in a later line; without a name a new one. */
static struct request *request_of(struct place at, const char *word) {
    for (uint32_t each = 0; word && each < request_count; each++) {
        if (strcmp(requests[each].name, word) == 0) {
            return &requests[each];
        }
    }
    if (request_count == REQUESTS) {
        refuse(at, "more than 16 requests", NULL);
    }
    copy_name(at, requests[request_count].name, word ? word : "");
    KeInitializeEvent(&requests[request_count].known, NotificationEvent, FALSE);
    return &requests[request_count++];
}

static ULONG number_of(struct place at, const char *word) {
    char *end = NULL;
    unsigned long number = word ? strtoul(word, &end, 0) : 0;
    if (!end || *end || number < 1 || number > 0xFFFFFFFF) {
        refuse(at, "not a number", word ? word : "nothing");
    }
    return (ULONG)number;
}

static struct call read_call(struct place at, const struct verb *verb) {
    struct call call = { verb->make, NULL, NULL, 0 };
    if (verb->file) {
        call.file = file_of(at, next_word(), verb->make == open_file);
    }
    if (verb->number) {
        call.number = number_of(at, next_word());
    }
    if (verb->request) {
        const char *word = next_word();
        if (!word && !verb->file) {
            refuse(at, "the name of a request is missing", NULL);
        }
        call.request = request_of(at, word);
    }
    const char *left = next_word();
    if (left) {
        refuse(at, "a word too many", left);
    }
    return call;
}

static void read_remembered(struct place at) {
    const char *word = next_word();
    if (!word || word[strspn(word, "pctabdef0123456789:,")] || remembered[0]) {
        refuse(at, remembered[0] ? "a second schedule" : "not a schedule, as in 'schedule 4:1,9:1'",
               word);
    }
    strcpy(remembered, word); /* a line's length */
    const char *left = next_word();
    if (left) {
        refuse(at, "a word too many", left);
    }
}

static void add_call(struct place at, const char *word) {
    bool numbered = word[0] >= '0' && word[0] <= '9';
    if (numbered && (word[0] < '1' || word[0] > '0' + THREADS || word[1])) {
        refuse(at, "a thread is 1, 2 or 3", word);
    }
    const struct verb *verb = find_verb(at, numbered ? next_word() : word);
    if (!numbered && verb->make != open_file) {
        refuse(at, "only open stands without a thread, as in '1 read f'", word);
    }
    struct call call = read_call(at, verb);
    struct thread *thread = &threads[numbered ? word[0] - '1' : 0];
    if (!numbered) {
        if (opened_count == FILES) {
            refuse(at, "more than 8 file objects", NULL);
        }
        opened[opened_count++] = call;
    } else if (thread->count == CALLS) {
        refuse(at, "more than 16 calls of a thread", NULL);
    } else {
        thread->calls[thread->count++] = call;
    }
}

static void read_scenario(const char *path) {
    char line[LINE];
    struct place at = { path, 0 };
    FILE *in = fopen(path, "r");
    if (!in) {
        refuse(at, "there is no such scenario", NULL);
    }
    memset(files, 0, sizeof files);
    memset(requests, 0, sizeof requests);
    memset(threads, 0, sizeof threads);
    file_count = request_count = opened_count = 0;
    remembered[0] = 0;
    while (fgets(line, sizeof line, in)) {
        at.line++;
        const char *word = strtok(line, " \t\r\n");
        if (word && strcmp(word, "schedule") == 0) {
            read_remembered(at);
        } else if (word && word[0] != '#') {
            add_call(at, word);
        }
    }
    fclose(in);
}

/* ---- A run ---- */
static void *run_thread(void *context) {
    const struct thread *thread = context;
    for (uint32_t at = 0; at < thread->count; at++) {
        thread->calls[at].make(&thread->calls[at]);
    }
    return NULL;
}

static void expect_ends(void) {
    for (uint32_t at = 0; at < request_count; at++) {
        if (requests[at].sent && &DriverPolicy && DriverPolicy.Waits) {
            IocsqExpectEnd(requests[at].sent);
        }
    }
}

static void close_all(void) {
    for (uint32_t at = 0; at < file_count; at++) {
        struct call call = { close_file, &files[at], NULL, 0 };
        close_file(&call);
    }
}

static void reap_all(void) {
    for (uint32_t at = 0; at < request_count; at++) {
        if (requests[at].sent && !IocsqWait(requests[at].sent, 0)) {
            IocsqComplain(requests[at].sent, "outlived its file object");
        }
        if (requests[at].sent) {
            IocsqFree(requests[at].sent);
        }
    }
}

static void open_first(void) {
    for (uint32_t at = 0; at < opened_count; at++) {
        open_file(&opened[at]);
    }
}

static void run(void *context) {
    IOCSQ_THREAD started[THREADS];
    ULONG count = 0;
    (void)context;
    driver = load_driver("bounded");
    open_first();
    IocsqChoices();
    for (uint32_t at = 0; at < THREADS; at++) {
        if (threads[at].count) {
            started[count++] = IocsqThread(run_thread, &threads[at]);
        }
    }
    IocsqJoinAll(started, count);
    expect_ends();
    close_all();
    reap_all();
    IocsqUnload(driver);
}

/* In a process of its own, whose variables and reports are no other run's. */
static void run_remembered_apart(void *of) {
    IocsqReplay(run, NULL, of);
}

static void run_remembered(const char *path) {
    read_scenario(path);
    int status = remembered[0] ? iocsq_run_apart(run_remembered_apart, remembered) : 0;
    if (status == IOCSQ_ABORTED) {
        printf("%s: schedule %s is no longer one of this test\n", path, remembered);
    } else if (status != 0) {
        printf("%s: schedule %s is wrong again\n", path, remembered);
        exit(status);
    } else if (remembered[0]) {
        printf("%s: schedule %s: nothing is wrong in it any more\n", path, remembered);
    }
}

/* One in so many runs shows a fault of this depth, or more. */
static double one_in(const IOCSQ_EXPLORED *explored, ULONG depth) {
    double runs = explored->Threads;
    for (ULONG at = 1; at < depth; at++) {
        runs *= explored->Steps;
    }
    return runs;
}

/* Prints what came of the runs of a scenario. Whether something was inserted. */
static bool draw(const char *path, ULONG depth, ULONG runs) {
    read_scenario(path);
    IOCSQ_EXPLORED explored = IocsqDraw(run, NULL, depth, runs);
    if (explored.Status != 0) {
        printf("%s: run %llu of depth %u is wrong: --schedule %s shows it again\n", path,
               (unsigned long long)(explored.Schedules + explored.Longer + 1), depth,
               explored.Schedule);
        exit(explored.Status);
    }
    printf("%s: %llu runs of depth %u, %u threads, %u steps: each shows a fault of that depth with "
           "a probability of at least 1 in %.0f",
           path, (unsigned long long)explored.Schedules, depth, explored.Threads, explored.Steps,
           one_in(&explored, depth));
    if (explored.Longer) {
        printf("; %llu were longer", (unsigned long long)explored.Longer);
    }
    printf("\n");
    return explored.Inserted > 0;
}

static int draw_all(int argc, char **argv) {
    ULONG depth = (ULONG)number_of_argument(argc, argv, 2, 1, 8, USAGE);
    ULONG runs = (ULONG)number_of_argument(argc, argv, 3, 1, 1000000000, USAGE);
    bool inserted = false;
    for (int at = 4; at < argc; at++) {
        inserted = draw(argv[at], depth, runs) || inserted;
    }
    printf("%d scenarios, %u runs of depth %u of each, none wrong%s\n", argc - 4, runs, depth,
           inserted ? "" : ", and nothing inserted");
    return inserted ? 0 : IOCSQ_TESTED_NOTHING;
}

/* Takes `--traces FILE`, to which a line for each schedule is added. */
static bool take_traces(int *argc, char ***argv) {
    if (*argc < 3 || strcmp((*argv)[1], "--traces") != 0) {
        return false;
    }
    FILE *to = fopen((*argv)[2], "a");
    if (!to) {
        perror((*argv)[2]);
        exit(2);
    }
    IocsqTraces(to);
    *argc -= 2;
    *argv += 2;
    return true;
}

static bool take_unreduced(int *argc, char ***argv) {
    bool taken = *argc > 1 && strcmp((*argv)[1], "--unreduced") == 0;
    if (taken) {
        IocsqReduce(FALSE);
        *argc -= 1;
        *argv += 1;
    }
    return taken;
}

static bool take_seconds(int *argc, char ***argv) {
    long limit;
    bool taken = take_number(argc, argv, "--seconds", 1000000, &limit, USAGE);
    if (taken) {
        time_over = seconds() + (double)limit;
    }
    return taken;
}

int main(int argc, char **argv) {
    IocsqRaces(1);
    IocsqReduce(TRUE);
    while (take_option(&argc, &argv, USAGE) || take_unreduced(&argc, &argv) ||
           take_traces(&argc, &argv) || take_seconds(&argc, &argv)) {
    }
    bool replays = argc == 4 && strcmp(argv[1], "--schedule") == 0;
    if (argc < 3) {
        fprintf(stderr, "%s\n", USAGE);
        return 2;
    }
    IocsqBounded();
    if (strcmp(argv[1], "--depth") == 0) {
        return draw_all(argc, argv);
    }
    if (!replays) {
        return explore_all(argc, argv);
    }
    read_scenario(argv[3]);
    IocsqReplay(run, NULL, argv[2]);
    printf("nothing was wrong in this schedule\n");
    return 0;
}
