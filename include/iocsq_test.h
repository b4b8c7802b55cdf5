/*
 * iocsq_test.h: what a test of a driver's queue calls. The test is the I/O manager: it loads the
 * driver, opens file objects, sends IRPs, waits for them, cancels them, closes file objects, and
 * unloads the driver.
 */
#ifndef IOCSQ_TEST_H
#define IOCSQ_TEST_H
#include "iocsq.h"

#include <stdio.h>
#ifdef __cplusplus
extern "C" {
#endif

/* What the checker is to know of a queue's callbacks, where it isn't what the comment at each field
 * says. */
typedef struct _IOCSQ_POLICY {
    /* Whether an IRP is a match. Null: where PeekContext is null any IRP is, otherwise one whose
     * file object it is. */
    BOOLEAN (*Match)(PIRP Irp, PVOID PeekContext);
    /* Where an insert puts its IRP: 0 last, 1 first. Null: last. */
    int (*Place)(PIRP Irp, PVOID InsertContext);
    /* The driver keeps an order of its own (by priority, say): the order isn't compared, only who
     * is in the list. */
    BOOLEAN AnyOrder;
    /* PeekContext null doesn't mean any IRP to this driver: the whole list can't be looked at. */
    BOOLEAN NoAudit;
    /* CsqPeekNextIrp does more than return an IRP: it notes which one is next, say, or that none is
     * and the device is idle. So iocsq calls it only where the framework does, and judges those
     * calls. Otherwise it also calls it to look through the list, and at times to the last match
     * before a removal. */
    BOOLEAN PeekHasEffects;
    /* CsqCompleteCanceledIrp may return before the IRP is completed, which the driver does
     * later. */
    BOOLEAN CompletesLater;
    /* What never happens in the queue, so that IocsqCoverage doesn't ask for it: nothing is
     * inserted (a queue for what a test can't send); the driver removes nothing; nothing stays for
     * long enough to be cancelled; CsqPeekNextIrp is never called. */
    BOOLEAN NeverInserts, NeverRemoves, NeverCancelled, NeverPeeks;
    /* Nobody cancels at DISPATCH_LEVEL, since the callbacks wait, as for a mutex. Otherwise every
     * fourth of IocsqCancelAny's cancels comes there. */
    BOOLEAN PassiveCancels;
    /* Reads, writes and device controls come at DISPATCH_LEVEL too, as a driver above may send
     * them. */
    BOOLEAN DispatchSends;
    /* Whether a request may wait on, as far as the driver knows: a read for which nothing has come,
     * say. It is asked where nothing else happens, so it reads the driver's data without a lock.
     * Null: no request may. */
    BOOLEAN (*Waits)(PIRP Irp); /* or IocsqNoneWaits, below */
    /* Milliseconds in which the driver ends a request that may not wait, from when it is sent; in
     * the bounded mode, from when its end is expected. 0: 2,000. */
    ULONG Within;
    /* Of a driver without an IO_CSQ. Its IRP_MJ_CLEANUP may leave what waits with a cancel routine,
     * since it ends soon by itself, such as a transfer. */
    BOOLEAN KeepsAtCleanup;
    /* Of such a driver: no request waits that reaches it once the IRP_MJ_CLEANUP of its file object
     * has begun. Otherwise it may, until it is cancelled, as by the end of its sender's thread.
     * (With an IO_CSQ none may.) */
    BOOLEAN NoneLate;
} IOCSQ_POLICY;
/* Waits of a driver that ends each request by itself. The bounded test expects ends of requests
 * only of a policy that has Waits. */
BOOLEAN IocsqNoneWaits(PIRP Irp);
/* Of one queue, after its IoCsqInitialize[Ex]; for null, of all that are initialized from now
 * on. */
VOID IocsqSetPolicy(PIO_CSQ Csq, const IOCSQ_POLICY *Policy);

PDRIVER_OBJECT IocsqLoad(PDRIVER_INITIALIZE DriverEntry); /* null where DriverEntry fails, or makes
                                                           * no device */
PFILE_OBJECT IocsqOpen(PDRIVER_OBJECT Driver);            /* IRP_MJ_CREATE; null where that fails */
VOID IocsqClose(PFILE_OBJECT File);                       /* IRP_MJ_CLEANUP, then IRP_MJ_CLOSE */
VOID IocsqUnload(PDRIVER_OBJECT Driver);                  /* and reports each IRP that was never
                                                           * completed */

/* A file object that is open, at random: its IRP_MJ_CLEANUP may be sent meanwhile, as where another
 * thread closes its handle, but IRP_MJ_CLOSE comes only once it was released. Null: none is
 * open. */
PFILE_OBJECT IocsqReferenceAny(VOID);
VOID IocsqRelease(PFILE_OBJECT File);
/* The same of this file object: FALSE where it is being closed. */
BOOLEAN IocsqReference(PFILE_OBJECT File);
/* In the place of IocsqRelease: the next request that this thread sends takes the reference over,
 * and releases it with its completion, as the I/O manager does. So IRP_MJ_CLOSE may come while the
 * dispatch routine still runs. */
VOID IocsqHandOver(PFILE_OBJECT File);

/* A request that was sent. It stays valid until IocsqFree. IocsqSend and IocsqControl answer null
 * where 4,096 IRPs are under way. The driver has a copy of the buffer, where the device's Flags
 * (DO_BUFFERED_IO, DO_DIRECT_IO) or the control code have it: in AssociatedIrp.SystemBuffer, or
 * described by MdlAddress. Either is null where it would have no bytes. What the driver fills in is
 * copied back as it completes the IRP: so the buffer has to stay until then. */
typedef struct _IOCSQ_REQUEST IOCSQ_REQUEST;
IOCSQ_REQUEST *IocsqSend(PFILE_OBJECT File, UCHAR MajorFunction, PVOID Buffer, ULONG Length);
IOCSQ_REQUEST *IocsqControl(PFILE_OBJECT File, ULONG IoControlCode, PVOID Buffer, ULONG InputLength,
                            ULONG OutputLength);                /* IRP_MJ_DEVICE_CONTROL */
/* The next request that this thread sends is shown to this function before the driver gets it, so
 * that another thread can cancel it while its dispatch routine runs. */
VOID IocsqShowNext(VOID (*Show)(IOCSQ_REQUEST *Request, PVOID Context), PVOID Context);
BOOLEAN IocsqCancel(IOCSQ_REQUEST *Request);                    /* IoCancelIrp, at any time */
/* Whether it was completed by then. */
BOOLEAN IocsqWait(IOCSQ_REQUEST *Request, ULONG Milliseconds);
/* Whether it was completed in its time, as the policy has it (Within). If not, and the policy
 * doesn't say that it may wait (Waits), or if it was cancelled, ends the program with a report. In
 * turns, while no other thread of the test does anything. */
BOOLEAN IocsqExpectEnd(IOCSQ_REQUEST *Request);
NTSTATUS IocsqStatus(IOCSQ_REQUEST *Request);                   /* STATUS_PENDING until it was */
ULONG_PTR IocsqInformation(IOCSQ_REQUEST *Request);             /* once it was completed */
VOID IocsqFree(IOCSQ_REQUEST *Request);                         /* once it was completed */
/* Ends the program with a report on a request, which begins with its name and this text. */
VOID IocsqComplain(IOCSQ_REQUEST *Request, const char *Text);
/* Ends the program with a report once it has run for so many seconds. */
VOID IocsqLimit(ULONG Seconds);
/* Stops for a debugger (SIGTRAP) as the call of this number is logged, of those that a report
 * shows. */
VOID IocsqStop(ULONG64 Call);

/* The device interrupts: calls the service routine of an interrupt that the driver has connected,
 * the last one for 0, the one before it for 1, and returns whether it was the device's. FALSE if
 * there is none. */
BOOLEAN IocsqInterrupt(ULONG Number);

/* IoCancelIrp of a request at random, also of one whose dispatch routine still runs, as another
 * thread may. */
BOOLEAN IocsqCancelAny(VOID);

/* From now on one in OneIn calls by which the driver asks for memory, an IRP or a work item returns
 * null. 0: none does. */
VOID IocsqScarce(ULONG OneIn);

/* Delays at random, at the places where another thread may come between. 0: none. */
VOID IocsqChaos(ULONG Seed);

/* From now on one thread runs at a time, and the seed draws which, at each place where another may
 * come between: so the same seed gives the same run, and the same report. A wait takes no time.
 * Call it first, and start the test's threads by IocsqThread. (The thread sanitizer sees less then:
 * the turns order everything.) 0: threads run freely. */
VOID IocsqTurns(ULONG Seed);
/* In turns: after this many switches from one thread to another a thread runs until it waits. 0: no
 * limit. */
VOID IocsqSwitches(ULONG Most);

typedef void *IOCSQ_THREAD;
IOCSQ_THREAD IocsqThread(void *(*Start)(void *), void *Context);
VOID IocsqJoin(IOCSQ_THREAD Thread);
VOID IocsqJoinAll(IOCSQ_THREAD *Threads, ULONG Count);
VOID IocsqPause(ULONG Microseconds);

/* As IocsqTurns, but nothing is drawn: which thread goes on is a choice, where one waits or ends,
 * and at each place where another may come between (then it is a preemption); so is what else the
 * checker draws. Call it first. */
VOID IocsqBounded(VOID);
/* What came of the schedules with at most so many preemptions. */
typedef struct _IOCSQ_EXPLORED {
    ULONG64 Schedules;   /* that were run; each is another */
    ULONG64 Inserted;    /* by the driver, in all of them */
    int Status;          /* 0: all were run, and none ended with a report. Otherwise that of the
                          * last, as a shell has it */
    ULONG Preemptions;   /* of the last: none that was run has fewer and a report */
    char Schedule[900];  /* of the last, for IocsqReplay */
    ULONG64 Longer;      /* of IocsqDraw, with the next: runs that had more steps, and don't
                          * count */
    ULONG Threads, Steps;
    BOOLEAN Unfinished;  /* IocsqExploreWithin has ended it */
    ULONG64 Left;        /* runs that were ended in a state in which another had been */
    ULONG64 Classes;     /* of schedules: two of one differ in the order of independent steps */
    BOOLEAN Checked;     /* the driver's accesses were (IocsqRaces) */
} IOCSQ_EXPLORED;
/* Of a driver whose file alone is compiled with -fsanitize=thread, in turns and in the bounded
 * mode: called before IocsqTurns, or before the first exploration. 0: its accesses to memory aren't
 * checked. 1: two accesses to one place, one of them a write, are reported if no call of the WDK
 * orders them. 2: each access is also a point at which another thread may come between. 3: as 2,
 * and none is reported. (A data race: C11, 5.1.2.4; what orders two accesses: own rules.) */
VOID IocsqRaces(ULONG Level);
/* Whether a volatile write of the driver happens before the volatile reads that see it: with MSVC's
 * /volatile:ms, as at first here, and not with its /volatile:iso, the default for ARM64. */
VOID IocsqVolatile(BOOLEAN Orders);
/* With that, in the bounded mode: of runs that differ in the order of independent steps alone one
 * is made to its end. The program is linked with --wrap=malloc, --wrap=calloc, --wrap=realloc and
 * --wrap=free, and an object of the test's own that threads share is named as they use it. */
VOID IocsqReduce(BOOLEAN Reduces);
/* With that: writes a line for each schedule, of its class and of what each thread logged. */
VOID IocsqTraces(FILE *To);
VOID IocsqShared(const VOID *Object, BOOLEAN Changes);
/* Calls Run with each schedule of at most MostPreemptions preemptions, in another process: first
 * those without, then those with one, and so on, until one ends that process. Run loads the driver
 * and unloads it, and frees what it allocates: each time it is called the program's variables have
 * the values that they have now. */
IOCSQ_EXPLORED IocsqExplore(VOID (*Run)(PVOID Context), PVOID Context, ULONG MostPreemptions);
/* The next IocsqExplore ends after so many seconds, whatever is left to run (Unfinished). 0: it
 * never does. */
VOID IocsqExploreWithin(ULONG Seconds);
/* Calls Run as many times as Runs says, in another process, by priorities that are drawn (PCT): a
 * fault for which Depth orders of steps (1 to 8) are enough is shown by each run with a probability
 * of at least 1 / (Threads * Steps^(Depth - 1)). What else the checker draws, and where the clock
 * comes early, is drawn too, and isn't part of that. */
IOCSQ_EXPLORED IocsqDraw(VOID (*Run)(PVOID Context), PVOID Context, ULONG Depth, ULONG Runs);
/* In Run: from now on choices are made. Before, no thread comes between another. */
VOID IocsqChoices(VOID);
/* Calls Run with this schedule, in this process. */
VOID IocsqReplay(VOID (*Run)(PVOID Context), PVOID Context, const char *Schedule);

/* How many calls the checker saw agree, and how often one thread gave its turn to another. */
typedef struct _IOCSQ_COUNTS {
    ULONG64 Inserted, Refused, Removed, Cancelled, Completed, Peeks, Audits, Switches;
} IOCSQ_COUNTS;
IOCSQ_COUNTS IocsqCounts(VOID);

/* After IocsqUnload: prints a table of what happened on standard output, and names on standard
 * error what never did, unless the policy says so: an insert, a removal, a cancel in the queue, a
 * callback. Whether all of it happened. If not, a test ends with IOCSQ_TESTED_NOTHING. */
BOOLEAN IocsqCoverage(VOID);
enum { IOCSQ_TESTED_NOTHING = 71 };
/* At any time: the same without a word, of what has happened by now. */
BOOLEAN IocsqCovered(VOID);

/* A disagreement ends the program with this status, after its report on standard error. */
enum { IOCSQ_DISAGREES = 70 };
/* The end of a program where the driver is wrong, or its policy lacks something: iocsq asked the
 * driver what it need not understand, as a peek context of null; or the driver peeks with a context
 * that is no file object. */
enum { IOCSQ_NO_POLICY = 72 };
#ifdef __cplusplus
}
#endif
#endif
