/*
 * csq_requests.h: a cancel-safe queue of requests for servers, over csq_ledger.h and the threads of
 * POSIX or Windows.
 * A submit puts a value in, a pointer, for a file object (a connection); it comes out once: to the
 * worker that takes the request, to the caller that cancels it, to the drain of its file object, or
 * to the call of csq_requests_tick that finds its time over. The numbers of IRPs, their lives, the
 * lock and the pass are the queue's own affair, and a worker waits for the next request.
 *
 *     struct csq_requests *requests = NULL;
 *     const struct csq_size size = { .irps = 64, .files = 4, .limit = 64, .passes = 1,
 *                                    .list = CSQ_AUTO };
 *     code = csq_requests_new(&requests, &size, NULL, NULL);
 *     code = csq_requests_submit(requests, job, connection, 0, &name);
 *
 *     struct csq_request request;    (a worker)
 *     while (csq_requests_next(requests, CSQ_ANY, CSQ_FOREVER, &request) == CSQ_OK) {
 *         serve(request.value);
 *         code = csq_requests_complete(requests, &request, CSQ_STATUS_SUCCESS);
 *     }
 *
 * - A request is under way from its submit to its end. It is listed first, and once a worker has
 *   taken it it is taken until it is completed or put back. One that a cancel, a drain, a cleanup,
 *   its deadline or csq_requests_free ends is ending meanwhile. A name (struct csq_irp) belongs to
 *   one request only: a cancel that comes late for it is refused as CSQ_STALE, a completion or a
 *   put-back as CSQ_NOT_HELD, and none of them affects a later request.
 * - All calls may be made by several threads at once, but csq_requests_new and csq_requests_free.
 *   There is no handle to keep for each thread, and a request may be completed by another thread
 *   than the one that took it.
 * - Lock: each call but csq_requests_now takes the queue's mutex, which is free while a thread
 *   waits, while an event is called, and while a struct csq_quiet is told.
 * - What a thread wrote before a submit or a put-back is seen by the thread that gets the value,
 *   and what it wrote before a completion by any thread that learns of that by a call of this
 *   header.
 * - A refusal, which is any code but CSQ_OK, changes nothing and writes nothing unless the call
 *   says so. If several would fit it is the first that the call's comment names, but for
 *   CSQ_NO_MEMORY. csq_name returns a code's name.
 * - Memory: csq_requests_new takes it. No other call does, but csq_requests_fd and
 *   csq_requests_room_fd take an eventfd of the kernel, and csq_requests_start_clock a thread.
 * - A thread that is to wait lets others run first, four times (sched_yield), since a sleep and a
 *   wake take far longer than a job of a busy queue.
 *
 * What the caller must uphold, which nothing checks: pointers are valid, and none is null unless
 * the call allows it; no call is made in a signal handler or in the forked child of a process with
 * threads, and no thread is cancelled (pthread_cancel) inside of one.
 *
 * Link with the library of csq.h and with -pthread. Each call is a symbol of it. Nothing of this
 * header is proved, but the calls of csq_ledger.h below it are in the proved library; it is tested.
 * Since: 1.1.
 */
#ifndef CSQ_REQUESTS_H
#define CSQ_REQUESTS_H

#include "csq_ledger.h"

#ifdef __cplusplus
extern "C" {
#endif

/* In the place of a number of milliseconds: without a limit. */
#define CSQ_FOREVER UINT32_MAX

/* A queue of requests. */
struct csq_requests;

/* A request that was taken. */
struct csq_request {
    struct csq_irp name;
    uint32_t file;
    void *value;
};

/* The end of a request without a worker: its name, its file object, why it ends (enum csq_why), its
 * value, and the word of the call that ends it, which is NULL unless that call has one. */
struct csq_ending {
    struct csq_irp name;
    uint32_t file;
    uint32_t why;
    void *value;
    void *word;
};

/* Functions that are called round the completion of a request that ends without a worker, by the
 * thread that ends it, and what they are called with. Either may be NULL; but by these alone comes
 * the value of a request that no cancel ends. The mutex is free then.
 * Before the completion the request is ending: by its name nobody completes it or puts it back
 * (CSQ_NOT_HELD), also not in the event. After it, it isn't under way any more, and its IRP may
 * have the next one. They return to their caller (by no exception and no longjmp), and may make any
 * call but csq_requests_free. Neither waits for its own request to end, nor for one whose event
 * waits for this one. A drain doesn't wait for another thread's after_completion, but a struct
 * csq_quiet is told after it. */
struct csq_requests_events {
    void (*before_completion)(void *context, const struct csq_ending *ending);
    void (*after_completion)(void *context, const struct csq_ending *ending);
    void *context;
};

/* What is submitted, and how. All 0 but the value is what csq_requests_submit does for file object
 * 0. */
struct csq_submit {
    void *value;
    uint32_t file;
    uint32_t front;        /* at the list's front if it isn't 0 */
    uint32_t milliseconds; /* how long to wait for room: 0 is not at all, CSQ_FOREVER is without a
                            * limit */
    uint64_t due;          /* its deadline, by the clock of csq_requests_tick; 0 and CSQ_NEVER are
                            * none */
};

/* Where a call that doesn't wait is told that a file object is quiet: none of its requests is under
 * way, and no event of them runs. It is the caller's memory, which the queue has from a
 * csq_requests_drain_start or csq_requests_cleanup_start that returned CSQ_HOLDING until `quiet` is
 * called with it. That is called once, with the mutex free, inside of some thread's call of this
 * header. It may make any call but csq_requests_free, and start the next drain with the same
 * memory, or free it. */
struct csq_quiet {
    void (*quiet)(struct csq_quiet *it);
    void *context; /* the caller's own */
    void *word;    /* what the events are called with */
    uint32_t file; /* the file object, or CSQ_ANY: this and what follows the queue writes */
    uint32_t why;
    struct csq_quiet *next;
};

/* What has happened since the queue was made. Later versions add numbers at the end. */
struct csq_requests_stats {
    uint32_t size;           /* in bytes, as csq_requests_read_stats takes and stores it */
    uint32_t most_under_way; /* at a time */
    uint64_t submitted;
    uint64_t taken; /* by workers, once more after each put-back */
    uint64_t put_back;
    uint64_t completed;      /* by workers */
    uint64_t ended[8];       /* without a worker, by enum csq_why */
    uint64_t full;           /* submits that returned CSQ_FULL */
    uint64_t file_full;      /* submits that returned CSQ_FILE_FULL */
    uint64_t waits;          /* how often a worker slept */
    uint64_t waits_for_room; /* how often a submit slept */
};

/* ---- A queue's beginning and end ---- */

/* Makes a queue of this size, whose number of passes isn't looked at: it takes one. With CSQ_AUTO
 * as its list only this call, csq_requests_close and csq_requests_free take the longer the more
 * IRPs and file objects there are. `file_limits` is NULL, or has a limit for each file object, as
 * csq_new_with_file_limits takes them. `events` may be NULL. The queue has copies of all three. It
 * is freed by csq_requests_free.
 * CSQ_NOT_EMPTY (*requests isn't NULL); CSQ_BAD_SIZE; CSQ_NO_MEMORY. */
CSQ_NODISCARD uint32_t csq_requests_new(struct csq_requests **requests, const struct csq_size *size,
                                        const uint32_t *file_limits,
                                        const struct csq_requests_events *events);

/* Refuses each further submit as CSQ_CLOSED, and wakes all who wait: workers get what is listed,
 * and then CSQ_CLOSED, and submits that wait for room get CSQ_CLOSED. Each eventfd is readable from
 * then on. What is under way is completed, put back, cancelled and drained as ever. Closing it
 * again is no fault. */
void csq_requests_close(struct csq_requests *requests);

/* Ends the queue's clock if it has one (csq_requests_start_clock), closes the queue, completes each
 * request that is listed as cancelled, with the events, and frees the queue, which no other thread
 * uses any more. (That a drain is over doesn't say so: the call that ended the last request may
 * not have returned. Join the thread.) *requests is NULL then. Of NULL there CSQ_OK, as free(NULL)
 * has it.
 * CSQ_HOLDING: requests are taken. The queue is closed and has no clock then, and what was listed
 * is completed, but nothing is freed. */
CSQ_NODISCARD uint32_t csq_requests_free(struct csq_requests **requests);

/* ---- Submits ---- */

/* Submits a value for a file object, at the list's end, or at its front if `front` isn't 0, and
 * wakes one who waits for it. The value may be any pointer, also NULL. Stores the request's name
 * before anybody can take it, so *name may be a part of what `value` points to. CSQ_OK doesn't say
 * that it is still listed: a worker, a drain, a cancel or its deadline may have ended it by then,
 * and value and name may be gone. While a drain that was started for its file object or for any
 * isn't over, the request ends inside of this call, with the events. After a refusal the value is
 * still the caller's.
 * CSQ_UNKNOWN_FILE; CSQ_CLOSED; CSQ_FILE_CLOSED; CSQ_LIVES_SPENT (each IRP is past its last life: a
 * queue has 2^30 requests for each, and then another has to be made); CSQ_FULL (all requests are
 * under way); CSQ_FILE_FULL; CSQ_FULL (as many are listed as the limit allows). */
CSQ_NODISCARD uint32_t csq_requests_submit(struct csq_requests *requests, void *value,
                                           uint32_t file, uint32_t front, struct csq_irp *name);

/* csq_requests_submit that waits for room in the place of CSQ_FULL and CSQ_FILE_FULL, for at most
 * submit->milliseconds, and that sets a deadline if submit->due is one: at that time, by the clock
 * of csq_requests_tick, the request is cancelled. A removal from the list, an end of a request,
 * csq_requests_close and a cleanup wake those that wait. They come in no order, and a submit that
 * doesn't wait may come first. A drain doesn't wait for them. *submit may be a part of what its
 * value points to, as *name may. The codes of csq_requests_submit, in their order. */
CSQ_NODISCARD uint32_t csq_requests_submit_with(struct csq_requests *requests,
                                                const struct csq_submit *submit,
                                                struct csq_irp *name);

/* Submits `count` values, each as csq_requests_submit_with does, under one lock as long as none
 * waits and no event is called, and stops at the first that is refused. Only the first waits for
 * room. Stores in *submitted how many there are, and their names in the first of `names`. Neither
 * `submits` nor `names` are a part of what the values point to. Returns the code of the one that
 * was refused, or CSQ_OK. */
CSQ_NODISCARD uint32_t csq_requests_submit_many(struct csq_requests *requests,
                                                const struct csq_submit *submits, uint32_t count,
                                                struct csq_irp *names, uint32_t *submitted);

/* ---- Workers ---- */

/* Takes the first request that is listed for a file object, or for any with CSQ_ANY, and waits for
 * one, for at most this many milliseconds: 0 is not at all, CSQ_FOREVER is without a limit. Of a
 * file object that a cleanup has closed none comes: it waits for the close, or until its time is
 * over. CSQ_UNKNOWN_FILE; CSQ_CLOSED (the queue was closed, and none is listed); CSQ_NONE (none
 * came in time). */
CSQ_NODISCARD uint32_t csq_requests_next(struct csq_requests *requests, uint32_t file,
                                         uint32_t milliseconds, struct csq_request *request);

/* Takes the first as csq_requests_next does, and waits for that one alone, and then more under the
 * same lock: at most `most`, and at most its fair share, which is what is listed for the file
 * object (or for any) divided among this worker and those that sleep for the same, rounded up.
 * Stores in *taken how many there are, 0 after a refusal.
 * CSQ_UNKNOWN_FILE; CSQ_BAD_SIZE (`most` is 0); CSQ_CLOSED; CSQ_NONE. */
CSQ_NODISCARD uint32_t csq_requests_next_many(struct csq_requests *requests, uint32_t file,
                                              uint32_t milliseconds, struct csq_request *batch,
                                              uint32_t most, uint32_t *taken);

/* Completes a request that was taken, with any status but STATUS_PENDING. Its value is the
 * caller's. (Once it is put back it isn't the caller's to complete: the worker that takes it next
 * has it by the same name.)
 * CSQ_UNKNOWN_IRP; CSQ_NOT_HELD (it isn't taken: it was completed or put back, or it is ending);
 * CSQ_NOT_REMOVED (its put-back returned CSQ_CANCELLED, and the status is another than
 * STATUS_CANCELLED); CSQ_NOT_FINAL. */
CSQ_NODISCARD uint32_t csq_requests_complete(struct csq_requests *requests,
                                             const struct csq_request *request, uint32_t status);

/* Completes `count` requests with one status, each as csq_requests_complete does, under one lock,
 * and stops at the first that is refused. Stores in *completed how many were completed. Returns the
 * code of the one that was refused, or CSQ_OK. */
CSQ_NODISCARD uint32_t csq_requests_complete_many(struct csq_requests *requests,
                                                  const struct csq_request *batch, uint32_t count,
                                                  uint32_t status, uint32_t *completed);

/* Puts a request back that was taken, at the list's end, or at its front if `front` isn't 0, and
 * wakes one who waits for it: for a worker that can't serve it now. It keeps its name and its
 * deadline. While a drain that was started for its file object or for any isn't over, it ends
 * inside of this call, with the events. After a refusal it is still taken, so the worker completes
 * it, and a drain waits for that.
 * CSQ_UNKNOWN_IRP; CSQ_NOT_HELD (as of csq_requests_complete); CSQ_NOT_REMOVED (a put-back before
 * returned CSQ_CANCELLED); CSQ_FILE_CLOSED; CSQ_FILE_FULL; CSQ_FULL; CSQ_CANCELLED (a cancel has
 * named it in the meantime, or a csq_requests_tick that found its time over: it is completed with
 * STATUS_CANCELLED alone, and can't be put back). If the list's limit is the number of IRPs, none
 * is refused as CSQ_FULL. */
CSQ_NODISCARD uint32_t csq_requests_put_back(struct csq_requests *requests,
                                             const struct csq_request *request, uint32_t front);

/* What has named a request that was taken, so that nobody waits for it: CSQ_WHY_CANCEL, or
 * CSQ_WHY_DUE if its time was over first; CSQ_WHY_NONE if nothing has, and of one that isn't under
 * way any more. Of one that is ending: why it is. No event tells of it, and a drain or a cleanup
 * names nothing that is taken: what drains has to tell the holder by itself. */
uint32_t csq_requests_is_cancelled(struct csq_requests *requests,
                                   const struct csq_request *request);

/* ---- Cancels and deadlines ---- */

/* Cancels a request by its name. CSQ_UNKNOWN_IRP: there is no such IRP. CSQ_STALE: it is not under
 * way any more. CSQ_NONE: it is taken, and its holder learns of the cancel
 * (csq_requests_is_cancelled, csq_requests_put_back); or it is ending already. CSQ_OK: it was
 * listed; it is completed as cancelled, with the events, and *value is its value, which the events
 * were called with. */
CSQ_NODISCARD uint32_t csq_requests_cancel(struct csq_requests *requests, struct csq_irp name,
                                           void **value);

/* csq_requests_cancel, with a word for the events. The same codes. */
CSQ_NODISCARD uint32_t csq_requests_cancel_with(struct csq_requests *requests, struct csq_irp name,
                                                void *word, void **value);

/* Cancels each request whose deadline is `now` or before: one that is listed ends, with the events
 * (CSQ_WHY_DUE), and the holder of one that is taken learns of it (csq_requests_is_cancelled).
 * Returns in how many milliseconds the next call is wanted, which is when the next one is due, or
 * CSQ_FOREVER if none is; what is submitted later may be due before. It may be more than the int
 * of poll and epoll_wait holds. A time before that of an earlier call counts as that. The clock is
 * the caller's: csq_requests_now, or a loop's own. */
uint32_t csq_requests_tick(struct csq_requests *requests, uint64_t now);

/* Returns the time in milliseconds by CLOCK_MONOTONIC, for deadlines. Lock: none. */
uint64_t csq_requests_now(void);

/* Starts a thread that makes the calls of csq_requests_tick in time, with csq_requests_now, so that
 * deadlines are times of that clock. It calls the events, and takes no signals.
 * csq_requests_free ends it.
 * CSQ_NOT_EMPTY (the queue has one, or is being freed); CSQ_NO_MEMORY (the system has no
 * thread). */
CSQ_NODISCARD uint32_t csq_requests_start_clock(struct csq_requests *requests);

/* ---- Connections that go ---- */

/* Completes each request that is listed for a file object, or for any with CSQ_ANY, as cancelled,
 * with the events, and waits until none of it is under way, for at most this many milliseconds (0,
 * CSQ_FOREVER as of csq_requests_next). (WDF calls that a purge.) What a worker puts back meanwhile
 * is drained too. The number of the file object may have its next connection then, if nobody
 * submits for the old one any more; otherwise it may go on for as long as they do. A thread that
 * has taken a request of it completes it first: otherwise it waits for itself. CSQ_UNKNOWN_FILE;
 * CSQ_HOLDING (its time is over, and requests of it are under way). */
CSQ_NODISCARD uint32_t csq_requests_drain(struct csq_requests *requests, uint32_t file,
                                          uint32_t milliseconds);

/* csq_requests_drain, with a word for the events. The same codes. */
CSQ_NODISCARD uint32_t csq_requests_drain_with(struct csq_requests *requests, uint32_t file,
                                               uint32_t milliseconds, void *word);

/* Starts a drain that nobody waits for: completes what is listed as csq_requests_drain does, and
 * has quiet->quiet called once the file object (or all of them, with CSQ_ANY) is quiet. Until then
 * what is submitted or put back for it ends inside of that call, with the events, and with the
 * cause and the word of the drain that was started last for its file object, or else for any.
 * quiet->quiet, quiet->context and quiet->word are the caller's to store. Several may be told of
 * one file object. CSQ_UNKNOWN_FILE; CSQ_HOLDING (it will be called, or another thread has called
 * it before this call returns). After CSQ_OK it is quiet already, and nothing is called. */
CSQ_NODISCARD uint32_t csq_requests_drain_start(struct csq_requests *requests, uint32_t file,
                                                struct csq_quiet *quiet);

/* Closes a file object for good (IRP_MJ_CLEANUP), so that no submit and no put-back for it is
 * accepted any more, and does what csq_requests_drain does. CSQ_UNKNOWN_FILE; CSQ_HOLDING (it is
 * closed then). */
CSQ_NODISCARD uint32_t csq_requests_cleanup(struct csq_requests *requests, uint32_t file,
                                            uint32_t milliseconds);

/* csq_requests_cleanup, with a word for the events. The same codes. */
CSQ_NODISCARD uint32_t csq_requests_cleanup_with(struct csq_requests *requests, uint32_t file,
                                                 uint32_t milliseconds, void *word);

/* Closes a file object for good, and does what csq_requests_drain_start does. CSQ_UNKNOWN_FILE;
 * CSQ_HOLDING (it is closed then, and quiet->quiet will be called). */
CSQ_NODISCARD uint32_t csq_requests_cleanup_start(struct csq_requests *requests, uint32_t file,
                                                  struct csq_quiet *quiet);

/* ---- Event loops ---- */

/* Stores the number of an eventfd, for epoll and poll, that is readable while a request is listed
 * for a file object, or for any with CSQ_ANY, and once the queue is closed. When none is listed any
 * more it stays readable until a csq_requests_next or csq_requests_next_many for the same returns
 * CSQ_NONE, so another edge comes only after that. (A submit of another thread may make it readable
 * for nothing then, until the next CSQ_NONE.) It is the queue's, which makes it at the first call,
 * closed by an exec and non-blocking, and closes it when it is freed; nobody reads or writes it.
 * CSQ_UNKNOWN_FILE; CSQ_NO_MEMORY (the kernel has none; Windows has no eventfds at all). */
CSQ_NODISCARD uint32_t csq_requests_fd(struct csq_requests *requests, uint32_t file, int *fd);

/* Stores the number of an eventfd that isn't readable from a submit that returned CSQ_FILE_FULL for
 * this file object (with CSQ_ANY: one that returned CSQ_FULL) until a submit may find room again,
 * or is refused for another cause: for a loop that doesn't read from its clients meanwhile. At any
 * other time it is readable, so a loop watches it by its edges (EPOLLET), or only after a refusal.
 * One that is made after a refusal is readable until the next one. A put-back that is refused
 * isn't looked at. Otherwise it is as that of csq_requests_fd. CSQ_UNKNOWN_FILE; CSQ_NO_MEMORY. */
CSQ_NODISCARD uint32_t csq_requests_room_fd(struct csq_requests *requests, uint32_t file, int *fd);

/* ---- Looks ---- */

/* Stores how many requests are listed for a file object, or for any with CSQ_ANY, and how many are
 * under way, those among them. CSQ_UNKNOWN_FILE. */
uint32_t csq_requests_len(struct csq_requests *requests, uint32_t file, uint32_t *listed,
                          uint32_t *under_way);

/* Stores what has happened since the queue was made. The caller stores sizeof *stats in stats->size
 * before, and no more bytes than that are written: a program that was compiled with fewer numbers
 * gets those. Afterwards stats->size is how many bytes were written: a program that was compiled
 * with more numbers than the library has sees by it which ones were left as they are.
 * CSQ_BAD_SIZE (stats->size is less than 8, or no multiple of 8). */
CSQ_NODISCARD uint32_t csq_requests_read_stats(struct csq_requests *requests,
                                               struct csq_requests_stats *stats);

#ifdef __cplusplus
}
#endif

#endif
