/* What the files of iocsq share. All names for others begin with iocsq_, since they stand in one
 * program with a driver. */
#ifndef IOCSQ_INTERNAL_H
#define IOCSQ_INTERNAL_H
#include "iocsq_test.h"
#include "hand.h"
#include "system.h"
#include "traces.h"

#include <stdatomic.h>
#include <stdbool.h>

/* IRPs under way, file objects that are open (one number of csq.h's is for no file object), an
 * IRP's stack locations, and the steps kept of an IRP. */
enum { IOCSQ_IRPS = 4096, IOCSQ_FILES = 255, IOCSQ_STACK = 4, IOCSQ_STEPS = 24 };
/* In the place of a time in nanoseconds: without a limit. */
#define IOCSQ_FOR_EVER UINT64_MAX

/* ---- irps.c ---- */

/* Where an IRP is: in no queue; in a queue's list; removed from it; taken out of it as cancelled;
 * completed. */
enum iocsq_place { IOCSQ_HOME, IOCSQ_LISTED, IOCSQ_REMOVED, IOCSQ_CANCELLED, IOCSQ_DONE };

/* An atomic step on an IRP, with the pass that made it. */
struct iocsq_step {
    const char *name;
    uint32_t pass;
    const char *during; /* which call of the driver, or IoCancelIrp, it is part of; null: unknown */
    uint32_t thread;
};

/* Memory of a request's own. */
struct iocsq_buffer {
    UCHAR *at; /* null: none */
    uint32_t size;
    uint32_t filled; /* by the sender, from the first byte on */
};

/* What nobody changes of an IRP while it is in a queue. */
struct iocsq_tail {
    PVOID context; /* DriverContext[3] */
    PETHREAD thread;
    PCHAR auxiliary;
    PIO_STACK_LOCATION location;
    PFILE_OBJECT file;
};

struct iocsq_queue;

/* An IRP that the I/O manager built for the driver. */
struct iocsq_built {
    PIO_STATUS_BLOCK result; /* null: it is none that the manager ends */
    PKEVENT event;           /* null: none */
    PVOID buffer;            /* the system buffer, or null */
    PVOID output;            /* where its first bytes go, at most these; null: nowhere */
    ULONG most;
};

/* An IRP, with what the checker knows of it: in memory of its own, so that an IRP that was
 * completed isn't read. */
struct iocsq_irp {
    IRP irp; /* first: iocsq_irp_at relies on it */
    IO_STACK_LOCATION stack[IOCSQ_STACK]; /* location k is stack[k - 1] */
    uint32_t index;
    bool used;        /* with the next under the state's lock */
    uint32_t cancels; /* of IocsqCancelAny, under way: the IRP isn't used anew before they end */
    bool own;  /* the driver allocated it, or had it built */
    struct iocsq_built built;
    _Atomic uint32_t use; /* which of its uses this is: it is sent, allocated, freed */
    UCHAR major;
    PFILE_OBJECT file;
    uint64_t sent; /* when, in nanoseconds (iocsq_note_sent) */
    uint32_t most; /* bytes that its completion may name: those of its buffer */
    struct iocsq_buffer buffer, direct; /* AssociatedIrp.SystemBuffer, and what MdlAddress
                                         * describes */
    MDL mdl;
    uint32_t output; /* bytes of the sender's buffer that are filled in at its completion */
    PVOID sender_buffer;
    _Atomic int place;
    _Atomic uint64_t stay; /* the queue, slot and life that it has in a reference queue; 0: none. A
                            * put-back keeps it */
    uint32_t pass;         /* which holds it there */
    PIO_CSQ_IRP_CONTEXT context;
    struct iocsq_tail tail; /* as it went into the queue */
    _Atomic bool late; /* it went into the queue once its file object's IRP_MJ_CLEANUP was sent */
    struct iocsq_queue *call_of; /* the queue whose call is to end with the IRP's completion, or
                                  * null */
    _Atomic uint64_t pending; /* `use` in the upper half, and a bit for each location that was
                               * marked pending */
    _Atomic bool passed_on;   /* to a lower driver */
    _Atomic uint32_t completions; /* calls of IoCompleteRequest */
    bool answered; /* by its dispatch routine; with the next four the state's lock is held for it */
    NTSTATUS answer;
    NTSTATUS status;
    ULONG_PTR information;
    bool pending_returned;
    struct iocsq_step steps[IOCSQ_STEPS]; /* of its present stay, or since it was sent */
    uint32_t step_count;
    uint32_t put_backs_left_out; /* of the steps, since there were too many */
    struct iocsq_hand hand;
};

struct iocsq_irp *iocsq_irp_at(const void *irp);                    /* null: no IRP */
struct iocsq_irp *iocsq_irp_of_entry(const LIST_ENTRY *entry);      /* null: no entry of an IRP */
struct iocsq_irp *iocsq_irp_number(uint32_t index);
void iocsq_touch_irps(void); /* their table is changed */
uint32_t iocsq_irp_count(void);                                     /* none above was ever used */
struct iocsq_irp *iocsq_new_irp(int locations, bool own);           /* null: all are under way */
void iocsq_end_own(struct iocsq_irp *i); /* one of the driver's own: the state's lock is held */
void iocsq_forget_irps(void); /* all that were used: none was ever */
const char *iocsq_place_name(const struct iocsq_irp *i);
/* Calls the driver at the IRP's next location. */
NTSTATUS iocsq_dispatch(PDEVICE_OBJECT device, struct iocsq_irp *i);
/* The two hold the state's lock. */
void iocsq_check_pending(const struct iocsq_irp *i); /* its dispatch routine's answer and its
                                                      * completion agree */
void iocsq_check_untouched(struct iocsq_irp *i);     /* since its completion */
struct iocsq_irp *iocsq_in_use(const void *irp, const char *call); /* one that wasn't completed or
                                                                    * freed; otherwise reports */

/* ---- cancels.c ---- */
/* IoCancelIrp by the IRP's sender, who may call it at any time, also once it is completed. */
BOOLEAN iocsq_cancel(struct iocsq_irp *i);

/* ---- undo.c ---- */
struct iocsq_writes;
struct iocsq_undo {
    uintptr_t frame;
    struct iocsq_writes *writes; /* null: there is none yet */
};
/* From now on this thread's writes in the driver are kept, except to frames below this one. */
void iocsq_begin_undo(struct iocsq_undo *undo, const void *frame);
void iocsq_note_write(const volatile void *at, size_t size); /* which is about to be made */
void iocsq_end_undo(struct iocsq_undo *undo); /* undoes them, the last one first */
uint64_t iocsq_count_not_undone(void);        /* writes, since a peek made too many */

/* ---- accesses.c ---- */
bool iocsq_is_thread_sanitized(void); /* the whole program is: then its library sees them */
bool iocsq_sees_accesses(void); /* the driver is compiled so that its accesses to memory are seen */

/* ---- builders.c ---- */
bool iocsq_is_built(const struct iocsq_irp *i); /* the I/O manager ends it */
void iocsq_end_built(struct iocsq_irp *i);      /* once all completion routines let it go on */
void iocsq_free_built(struct iocsq_irp *i);

/* ---- buffers.c ---- */
/* What a sender gives with a request, and by which method: of METHOD_BUFFERED and so on. */
struct iocsq_sent {
    PVOID buffer;
    uint32_t input, output; /* bytes */
    ULONG method;
};
void iocsq_give_buffers(struct iocsq_irp *i, struct iocsq_sent sent);
void iocsq_take_buffers(struct iocsq_irp *i); /* at its completion: with the next the state's lock
                                               * is held */
void iocsq_end_buffers(const struct iocsq_irp *i, const void *place); /* by its completion there */
void iocsq_check_buffers_untouched(const struct iocsq_irp *i);
void iocsq_free_buffers(struct iocsq_irp *i);

/* ---- patience.c ---- */
void iocsq_note_sent(struct iocsq_irp *i);

/* ---- manager.c ---- */
ULONG iocsq_patience(void); /* milliseconds after which a request that should have been completed
                             * will never be */
bool iocsq_wait_for(struct iocsq_irp *i, ULONG milliseconds); /* whether it was completed by then */
bool iocsq_is_done(void *irp);                /* a struct iocsq_irp: the state's lock is held */
void iocsq_check_all_completed(void);         /* that a test sent, and untouched since */
NTSTATUS iocsq_send_and_wait(PFILE_OBJECT file, UCHAR major);
NTSTATUS iocsq_send_pnp(PDEVICE_OBJECT device, UCHAR minor); /* to the top of its stack; returns
                                                              * once it is completed */
bool iocsq_sent_unbuffered(void); /* a read or write had no system buffer, since its device's Flags
                                   * ask for none */
/* In a dispatch routine that has queued its IRP: now and then the thread goes on only after so long
 * that the IRP was completed meanwhile, and its file object closed, if no more than this request
 * keeps it from that. */
void iocsq_stay_behind(void);

/* ---- files.c ---- */
uint32_t iocsq_file_number(const void *file); /* IOCSQ_FILES: no file object */
uint32_t iocsq_open_files(void);              /* how many are open */
bool iocsq_is_closing(const void *file);      /* its IRP_MJ_CLEANUP was sent */
bool iocsq_is_cleaned(const void *file);      /* its IRP_MJ_CLEANUP was completed */
/* With the next two the state's lock is held. The same of a file object. */
bool iocsq_is_file_cleaned(const void *file);
void iocsq_release_file(const void *file); /* an IRP of it is completed: IRP_MJ_CLOSE comes later */
void iocsq_take_over_reference(void);         /* that this thread handed over (IocsqHandOver) */
/* The driver's references, of ObReferenceObject. Whether it is a file object. */
bool iocsq_reference_file(PVOID object, int change);

/* ---- turns.c ---- */
/* What each thread has of its own, in one struct, since the bounded mode exchanges it. */
enum { IOCSQ_LOCKS = 16 };
struct iocsq_watch {
    const void *lock;
    uint32_t releases;
};
struct iocsq_own {
    uint32_t thread; /* its number; 0: it has none yet */
    uint32_t random_state;
    const char *hint;                /* a second line for a report of this thread, or null */
    const void *locks[IOCSQ_LOCKS];  /* that it has, the last one taken last */
    uint32_t lock_count, spin_lock_count;
    KIRQL irql;
    KIRQL irql_before;   /* the first of its spin locks was taken, */
    bool saved_before;   /* and that call returned it */
    uint32_t raisable;   /* its calls of the driver that may come at DISPATCH_LEVEL */
    struct iocsq_watch watch;
    PFILE_OBJECT handed_over; /* whose reference its next request takes over */
    bool took_over;           /* its last request took one over */
    void (*show)(IOCSQ_REQUEST *request, PVOID context); /* its next request; null: nobody */
    PVOID show_context;
    struct thread_object *system_thread; /* which it is, or null */
    uintptr_t callback; /* the driver's that it called last, but for CsqPeekNextIrp; 0: none */
    uintptr_t blamed;   /* the callback that its report is about; 0: none */
    const void *set_at; /* where the cancel routine was set, if its report says so; null: nowhere */
    bool is_processor;
    uint32_t removals;  /* of it before which iocsq might look ahead */
    int report_status;  /* with which its report ends the program; 0: IOCSQ_DISAGREES */
    uint32_t part;         /* of traces.c */
    uint32_t hushed;       /* the driver's accesses aren't watched: iocsq asks for itself alone */
    uint32_t asked;        /* how often it asked for the time */
    uint32_t completes;    /* how many calls of IoCompleteRequest it is in */
    void *const *frames;   /* of the place that its report is about; null: of where it is */
    int frame_count;
    uintptr_t other_place; /* the other access of a race, for its report; 0: none */
    bool asks_alone; /* it is in an audit with null as peek context, and the driver itself has never
                      * used null */
    const char *during;  /* which call of the driver, or IoCancelIrp, it is in; null: none */
    uint32_t arming;     /* 1 + the IRP whose routine it has set, and has yet to look; 0: none */
    bool took;           /* the cancel that it makes was noted as one that found no routine */
    struct iocsq_irp *routine_of; /* whose cancel routine of the driver's it is in; null: none */
    uint32_t cancel_hold; /* how often it took the cancel spin lock */
    struct iocsq_undo *undo; /* of the peek that it makes and the framework doesn't; null: none */
};
extern _Thread_local struct iocsq_own iocsq_own;

/* ---- report.c ---- */
uint32_t iocsq_thread(void); /* this thread's number: 1 and so on */
uint32_t iocsq_number_thread(void); /* the next one */
uint32_t iocsq_thread_count(void);  /* no thread has a greater number */
uint32_t iocsq_random(void);
uint32_t iocsq_draw(uint32_t below);
bool iocsq_rarely(uint32_t in); /* once in so many times */
void iocsq_point(void);         /* another thread may come between here */
void iocsq_long_point(uint32_t in); /* and once in so many times others come between for long */
/* Notes a call, for the reports; `about` may be null. */
void iocsq_log(const struct iocsq_irp *about, const char *format, ...)
    __attribute__((format(IOCSQ_PRINTF, 2, 3)));
void iocsq_log_sent(const struct iocsq_irp *about, const char *format, ...)
    __attribute__((format(IOCSQ_PRINTF, 2, 3)));
void iocsq_log_of_driver(const char *call); /* of no IRP, and only where the driver is at work */
/* The driver's fault: reports it, and ends the program. `about` may be null. */
void iocsq_disagree(const struct iocsq_irp *about, const char *format, ...)
    __attribute__((format(IOCSQ_PRINTF, 2, 3), noreturn));
/* A second line for a report of this thread; null: none. */
void iocsq_set_hint(const char *text);
void iocsq_show_last_calls(void);
extern IOCSQ_COUNTS iocsq_counts;
#define IOCSQ_COUNT(of) __atomic_add_fetch(&iocsq_counts.of, 1, __ATOMIC_RELAXED)

/* ---- places.c ---- */
void iocsq_show_places(bool in_signal); /* the driver's calls of this thread, the innermost first */
void iocsq_show_function(const char *how, uintptr_t address); /* a line: how, and where that is */

/* ---- schedule.c ---- */
void iocsq_begin_steps(struct iocsq_irp *i);
void iocsq_step(struct iocsq_irp *i, uint32_t pass, const char *name);
void iocsq_step_again(struct iocsq_irp *i, const char *name); /* a step of this thread that the
                                                               * protocol refuses */
/* The same before the step with this number. */
void iocsq_step_before(struct iocsq_irp *i, uint32_t at, uint32_t pass, const char *name);
void iocsq_take_back_steps(struct iocsq_irp *i, uint32_t from, uint32_t to);
/* An IRP's steps, with its passes numbered from 1 as they come. */
struct iocsq_schedule {
    uint32_t count, passes;
    uint32_t put_backs_left_out;
    struct iocsq_step steps[IOCSQ_STEPS];
};
/* Whether the steps can be said; otherwise `why` is the cause, or null where there are none. */
bool iocsq_schedule_of(const struct iocsq_irp *i, struct iocsq_schedule *made, const char **why);
const char *iocsq_step_irp(const struct iocsq_step *step); /* the IRP that its line names, with a
                                                            * space before; empty: none */
void iocsq_show_schedule(const struct iocsq_irp *i);

/* ---- schedules.c: of IRPs with cancel routines of the driver's own ---- */
/* As such an IRP is completed: ends the program with a report if its steps break the protocol. The
 * state's lock is held. */
void iocsq_judge_schedule(const struct iocsq_irp *i);
/* As such an IRP is reported. The report's lock is held. */
void iocsq_note_schedule(const struct iocsq_irp *i);
struct iocsq_schedules_noted {
    uint64_t irps, left_out; /* with a schedule, without one */
    uint64_t different;      /* schedules, each of which was replayed */
};
struct iocsq_schedules_noted iocsq_schedules_noted(void);

/* ---- turns.c ---- */
bool iocsq_in_turns(void); /* whether one thread runs at a time */
void iocsq_leave_turns(void); /* a run is left halfway */
uint32_t iocsq_task_count(void); /* the threads that there were */
void iocsq_forget_priorities(void); /* of the threads that there are: their memory isn't among the
                                     * variables */
void iocsq_turn_point(void);
void iocsq_long_turn_point(uint32_t in);
void iocsq_yield(void); /* lets another thread run, in turns and else */
/* Returns once it may go on, at once if it may. `is_time`: the wait ends by the clock, which may
 * come early; else the time is only a limit. */
void iocsq_wait_in_turns(bool (*may_go)(void *), void *of, uint64_t nanoseconds, bool is_time,
                         const char *what);
void iocsq_end_turns_of_thread(void);
bool iocsq_has_ended(void *thread); /* an IOCSQ_THREAD, in turns */

/* ---- clock.c: of the turns ---- */
uint64_t iocsq_now_in_turns(void);
void iocsq_set_clock(uint64_t nanoseconds);
void iocsq_pass_time_in_turns(uint64_t nanoseconds);
void iocsq_pass_time_of_turn(void);
void iocsq_pass_time_of_call(void); /* of one that asks for a time */

/* ---- explore.c ---- */
bool iocsq_is_bounded(void); /* in turns, and choices are made in the place of draws */
void iocsq_begin_choices(void);
struct iocsq_options {
    uint32_t count;
    uint32_t free;  /* the first ones, which are no preemptions */
    uint64_t point; /* by which thread, and whether it waits */
    const uint32_t *threads; /* which go on by each; 0: the time does. Null: no thread goes on */
};
/* One of these options: 0, or what the plan of this run has here. */
uint32_t iocsq_choose(const struct iocsq_options *of);
uint32_t iocsq_choose_value(uint32_t values); /* below this, and each is free */
/* All runs are made anew, since there are more points now: leaves this one. */
void iocsq_begin_again(void);
void iocsq_note_place(uintptr_t place); /* for the schedule's name: a point of this run */

bool iocsq_is_by_priorities(void); /* threads go on by priorities, and what else is drawn is no
                                    * choice */

/* ---- priorities.c ---- */
enum { IOCSQ_DEPTH = 8 }; /* the greatest */
struct iocsq_priorities {
    uint32_t depth; /* 0: none */
    uint32_t steps; /* among which the priorities change */
    uint32_t seed;
};
void iocsq_begin_priorities(const struct iocsq_priorities *by);
bool iocsq_has_priorities(void);
uint32_t iocsq_new_priority(void);    /* of a thread; never 0 */
uint32_t iocsq_lowest_priority(void); /* below all others */
uint32_t iocsq_priority_after_step(uint32_t priority); /* of the thread that makes it */
uint32_t iocsq_draw_by_priorities(uint32_t below);
uint32_t iocsq_steps(void); /* that were made */

/* ---- variables.c ---- */
void iocsq_restore_variables(const struct iocsq_variables *saved);

/* ---- waits.c ---- */
/* The lock of what threads wait for, of the IRPs' table and of the file objects (traces.h has the
 * same for one object alone). */
void iocsq_lock_state(void);
void iocsq_unlock_state(void);
void iocsq_state_changed(void);
/* Waits until it holds or the time is over, and returns whether it holds. The state's lock is held
 * before and after. */
bool iocsq_await(bool (*holds)(void *), void *of, uint64_t nanoseconds, const char *what);
/* The same, where the driver waits until a time. */
bool iocsq_await_time(bool (*holds)(void *), void *of, uint64_t nanoseconds, const char *what);
uint64_t iocsq_now(void); /* nanoseconds, in turns those of the turns */
bool iocsq_is_signaled(void *header);
void iocsq_begin_header(DISPATCHER_HEADER *header, int type, LONG state);
/* That it was initialized. */
void iocsq_expect_header(const DISPATCHER_HEADER *header, const char *call);

/* ---- times.c ---- */
uint64_t iocsq_nanoseconds_until(LARGE_INTEGER time); /* as the WDK has a time: negative from now
                                                       * on, otherwise the system's */

/* ---- threads.c ---- */
void iocsq_join_threads(void);

/* ---- locks.c ---- */
uint32_t iocsq_lock_count(void); /* how many locks of the driver's this thread has */
const void *iocsq_last_lock(void);
bool iocsq_has_lock(const void *lock);
uint32_t iocsq_spin_lock_count(void);
void iocsq_note_lock(const void *lock);   /* this thread has it */
void iocsq_forget_lock(const void *lock); /* has it no more */
/* Counts how often this thread releases a lock from now on. What it counted before: for
 * iocsq_end_watch. */
struct iocsq_watch iocsq_watch_lock(const void *lock);
uint32_t iocsq_end_watch(struct iocsq_watch before); /* answers how often it was released */
uint32_t iocsq_cancel_lock_hold(void); /* which time it is that this thread has the cancel spin
                                        * lock; 0: it hasn't */

/* ---- irql.c ---- */
void iocsq_set_irql(KIRQL level);
void iocsq_expect_irql(KIRQL most, const char *call); /* the driver makes this call at no higher
                                                       * one */

/* ---- coverage.c ---- */
/* What is counted beside the callbacks, in the order of its table. */
enum iocsq_event {
    IOCSQ_REFUSED,
    IOCSQ_PUT_BACK,
    IOCSQ_CANCEL_BEFORE, /* what each cancel met */
    IOCSQ_CANCEL_AT_INSERT,
    IOCSQ_CANCEL_IN_QUEUE,
    IOCSQ_CANCEL_BESIDE_REMOVAL,
    IOCSQ_CANCEL_AFTER_REMOVAL,
    IOCSQ_CANCEL_AFTER_COMPLETION,
    IOCSQ_CANCEL_BY_DRIVER,
    IOCSQ_CLEANUP,
    IOCSQ_CLEANUP_BEFORE_INSERT,
    IOCSQ_CLEANUP_BEFORE_REFUSAL,
    IOCSQ_CLEANUP_OUTLIVED, /* with the next three: of cancel routines of the driver's own */
    IOCSQ_HAND_SET,
    IOCSQ_HAND_TAKEN_BACK,
    IOCSQ_HAND_GONE,
    IOCSQ_ENDED_WELL, /* how each request was completed, but for those that open and close a file
                       * object */
    IOCSQ_ENDED_CANCELLED,
    IOCSQ_ENDED_BY_TIME,
    IOCSQ_ENDED_OTHERWISE,
    IOCSQ_EVENTS
};
void iocsq_cover(enum iocsq_event event);
void iocsq_cover_end(UCHAR major, NTSTATUS status); /* of a request that was completed */

/* ---- deferred.c ---- */
/* No timer that is set lies in there, and no DPC that is queued; no DPC that runs. */
void iocsq_check_no_deferred(const void *from, size_t size, const char *what);
void iocsq_check_no_running(const void *from, size_t size, const char *what);
/* Memory that this thread frees. A DPC in it may run, if that doesn't use it any more. */
void iocsq_note_freed(const void *from, size_t size);
/* By the DPC that runs: what it uses wasn't freed since it began. */
void iocsq_expect_not_freed(const volatile void *at);
void iocsq_end_deferred(void);
bool iocsq_is_under_way(const KDPC *dpc); /* queued, or running: the state's lock is held */
/* Round a DPC or a work item, which are called at this IRQL. */
void iocsq_begin_routine(const char *what);
void iocsq_end_routine(const char *what, KIRQL level);

/* ---- works.c ---- */
/* No work item lies in there that is queued: the state's lock is held. */
void iocsq_check_no_work(const void *from, size_t size, const char *what);
void iocsq_end_works(void);

/* ---- interrupts.c ---- */
void iocsq_free_deleted_timers(void); /* those whose callback has returned */
void iocsq_check_timers_deleted(void);
void iocsq_check_interrupts_disconnected(void);

/* ---- resources.c ---- */
/* That was not deleted lies in there. */
void iocsq_check_no_resource(const void *from, size_t size, const char *what);

/* ---- memory.c ---- */
void iocsq_check_memory_freed(void);
bool iocsq_is_scarce(const char *call); /* whether this call of the driver's gets no memory
                                         * (IocsqScarce) */
void iocsq_expect_nonpaged(const void *at, const char *what); /* it doesn't lie in memory of the
                                                               * paged pool */
void iocsq_check_no_lookaside(const void *from, size_t size); /* that was not deleted lies in
                                                               * there */

/* ---- devices.c ---- */
bool iocsq_reference_device(PVOID object, int change); /* as iocsq_reference_file */
/* A work item of it is queued (the state's lock is held), and has run (it isn't). Of what is no
 * device: nothing. */
void iocsq_hold_device(const void *object);
void iocsq_let_go_of_device(const void *object);
void iocsq_check_links_deleted(void);

/* ---- search.c ---- */
/* For the end of a report: says so if iocsq called CsqPeekNextIrp where the framework doesn't. */
void iocsq_show_own_peeks(void);
/* As the driver uses a bad address: if this thread is in a peek with null that only iocsq asks for,
 * ends the program with a report that the policy is missing. */
void iocsq_ask_for_policy(void);

/* ---- queue.c ---- */
/* Those whose IO_CSQ lies in there. */
void iocsq_end_queues_in(const void *from, size_t size, const char *what);
void iocsq_end_queues(void);
/* One that a file object's cleanup should have ended, and that is still in a queue. Null: none. */
struct iocsq_irp *iocsq_left_in_queues(uint32_t file);
bool iocsq_cancel_queued(struct iocsq_irp *i); /* whether its cancel routine was a queue's */
void iocsq_cover_cancel(const struct iocsq_irp *i, bool found); /* what a cancel met */
void iocsq_complete_held(struct iocsq_irp *i, NTSTATUS status);  /* ends its stay */

#endif
