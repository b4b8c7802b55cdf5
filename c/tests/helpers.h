/* For Frama-C's WP, which c/check-helpers gives it with csq.h: contracts, in ACSL, of the calls of
 * csq.h that are made of others, and of what these are made of. Those of the exports are part of
 * what csq_c promises: which IRP a pass owes or holds is that of its last csq_mark_cancel or
 * csq_remove_next, as it is in these calls. Those of the caller's functions are what csq.h asks of
 * them. That the lock's functions get its context, and which code a refusal has, isn't said. */

/* Whether the caller's lock is held, how many IRPs the pass holds and owes, how many it has
 * completed, and how many times before_completion was called. */
/*@ ghost int locked; */
/*@ ghost int held; */
/*@ ghost int owed; */
/*@ ghost uint64_t done; */
/*@ ghost uint64_t told; */
/* The IRP that the pass owes or holds last, for which file object none was left at the last
 * removal, which file object was closed, and how many times after_completion was called. */
/*@ ghost uint32_t got_irp; */
/*@ ghost uint32_t got_life; */
/*@ ghost int none_left; */
/*@ ghost uint32_t none_of; */
/*@ ghost int closed; */
/*@ ghost uint32_t closed_file; */
/*@ ghost uint64_t woken; */

/*@ predicate got(struct csq_irp irp) = irp.irp == got_irp && irp.life == got_life; */

/*@ requires !locked; assigns locked; ensures locked; */
void checked_lock(void *context);

/*@ requires locked; assigns locked; ensures !locked; */
void checked_unlock(void *context);

/*@ requires !locked && (held > 0 || owed > 0) && got(irp);
    assigns told;
    ensures told == \old(told) + 1; */
void checked_before(void *context, struct csq_irp irp);

/*@ requires !locked && got(irp); assigns woken; ensures woken == \old(woken) + 1; */
void checked_after(void *context, struct csq_irp irp);

/*@ requires \valid(found) && \valid_read(pass);
    assigns *found, owed, got_irp, got_life;
    ensures \result == CSQ_OK ==> pass->at != \null && got_irp == irp.irp && got_life == irp.life;
    ensures \result == CSQ_OK ==> *found == 0 || *found == 1;
    ensures \result == CSQ_OK ==> owed == \old(owed) + *found;
    ensures \result != CSQ_OK ==> *found == \old(*found) && owed == \old(owed); */
uint32_t csq_mark_cancel(struct csq_pass *pass, struct csq_irp irp, uint32_t *found);

/*@ requires locked && owed > 0 && \valid_read(queue) && \valid_read(pass);
    assigns owed, done;
    behavior owned: assumes queue->number == pass->queue && got(irp);
      ensures \result == CSQ_OK && owed == \old(owed) - 1 && done == \old(done) + 1;
    behavior refused: assumes !(queue->number == pass->queue && got(irp));
      ensures \result != CSQ_OK && owed == \old(owed) && done == \old(done);
    complete behaviors; disjoint behaviors; */
uint32_t csq_cancel_owed(struct csq_queue *queue, struct csq_pass *pass, struct csq_irp irp);

/*@ requires locked && \valid(irp);
    assigns held, *irp, got_irp, got_life, none_left, none_of;
    ensures \result == CSQ_OK ==> got_irp == irp->irp && got_life == irp->life;
    ensures none_left <==> \result == CSQ_NONE;
    ensures none_of == file;
    ensures \result == CSQ_OK ==> held == \old(held) + 1;
    ensures \result != CSQ_OK ==> held == \old(held); */
uint32_t csq_remove_next(struct csq_queue *queue, struct csq_pass *pass, uint32_t file,
                         struct csq_irp *irp);

/*@ requires locked && \valid(len); assigns *len; */
uint32_t csq_file_len(const struct csq_queue *queue, uint32_t file, uint32_t *len);

/*@ requires held > 0;
    assigns held, done;
    behavior own: assumes got(irp);
      ensures \result == CSQ_OK && held == \old(held) - 1 && done == \old(done) + 1;
    behavior refused: assumes !got(irp);
      ensures \result != CSQ_OK && held == \old(held) && done == \old(done);
    complete behaviors; disjoint behaviors; */
uint32_t csq_complete_cancelled(struct csq_pass *pass, struct csq_irp irp);

/*@ requires locked;
    assigns closed, closed_file;
    ensures \result == CSQ_OK ==> closed && closed_file == file; */
uint32_t csq_close_file(struct csq_queue *queue, struct csq_pass *pass, uint32_t file);

/*@ predicate can_be_called(struct csq_lock *lock, uint32_t *completed) =
      \valid_read(lock) && \valid(completed); */

/* The lock is free again, the pass owes what it did, *completed is the number of completions, and
 * nothing is stored or completed if the call is refused. before_completion is called once for each
 * completion. */
/*@ requires can_be_called(lock, completed) && \valid_read(queue) && \valid_read(pass);
    requires events == \null || \valid_read(events);
    requires !locked && owed >= 0;
    assigns *completed, locked, owed, done, told, woken, got_irp, got_life;
    ensures !locked && owed == \old(owed);
    ensures \result == CSQ_OK ==> *completed == done - \old(done) && *completed <= 1;
    ensures \result != CSQ_OK ==> done == \old(done) && *completed == \old(*completed);
    ensures events != \null && events->before_completion != \null
        ==> told - \old(told) == done - \old(done);
    ensures events != \null && events->after_completion != \null
        ==> woken - \old(woken) == done - \old(done); */
CSQ_INLINE uint32_t csq_cancel_with(struct csq_queue *queue, struct csq_pass *pass,
                                    struct csq_irp irp, const struct csq_lock *lock,
                                    const struct csq_events *events, uint32_t *completed);

/* The same of what the pass holds. (The number is counted modulo 2^32.) */
/*@ requires can_be_called(lock, completed);
    requires events == \null || \valid_read(events);
    requires !locked && held >= 0;
    assigns *completed, locked, held, done, told, woken, got_irp, got_life, none_left, none_of;
    ensures \result == CSQ_OK ==> none_left && none_of == file;
    ensures !locked && held == \old(held);
    ensures \result == CSQ_OK && done - \old(done) <= 0xFFFFFFFF
        ==> *completed == done - \old(done);
    ensures \result != CSQ_OK ==> *completed == \old(*completed);
    ensures events != \null && events->before_completion != \null
        ==> told - \old(told) == done - \old(done);
    ensures events != \null && events->after_completion != \null
        ==> woken - \old(woken) == done - \old(done); */
CSQ_INLINE uint32_t csq_drain_with(struct csq_queue *queue, struct csq_pass *pass, uint32_t file,
                                   const struct csq_lock *lock, const struct csq_events *events,
                                   uint32_t *completed);

/*@ requires can_be_called(lock, completed);
    requires events == \null || \valid_read(events);
    requires !locked && held >= 0;
    assigns *completed, locked, held, done, told, woken, got_irp, got_life, none_left, none_of,
        closed, closed_file;
    ensures \result == CSQ_OK ==> closed && closed_file == file;
    ensures \result == CSQ_OK ==> none_left && none_of == file;
    ensures !locked && held == \old(held);
    ensures \result == CSQ_OK && done - \old(done) <= 0xFFFFFFFF
        ==> *completed == done - \old(done);
    ensures \result != CSQ_OK ==> *completed == \old(*completed);
    ensures events != \null && events->before_completion != \null
        ==> told - \old(told) == done - \old(done);
    ensures events != \null && events->after_completion != \null
        ==> woken - \old(woken) == done - \old(done); */
CSQ_INLINE uint32_t csq_cleanup_with(struct csq_queue *queue, struct csq_pass *pass, uint32_t file,
                                     const struct csq_lock *lock, const struct csq_events *events,
                                     uint32_t *completed);

/*@ requires can_be_called(lock, completed) && \valid_read(queue) && \valid_read(pass);
    requires callback == \null || \valid_read(callback);
    requires !locked && owed >= 0;
    assigns *completed, locked, owed, done, told, woken, got_irp, got_life;
    ensures !locked && owed == \old(owed);
    ensures \result == CSQ_OK ==> *completed == done - \old(done) && *completed <= 1;
    ensures \result != CSQ_OK ==> done == \old(done) && *completed == \old(*completed);
    ensures callback != \null && callback->before_completion != \null
        ==> told - \old(told) == done - \old(done); */
CSQ_INLINE uint32_t csq_cancel(struct csq_queue *queue, struct csq_pass *pass, struct csq_irp irp,
                               const struct csq_lock *lock, const struct csq_callback *callback,
                               uint32_t *completed);

/*@ requires can_be_called(lock, completed);
    requires callback == \null || \valid_read(callback);
    requires !locked && held >= 0;
    assigns *completed, locked, held, done, told, woken, got_irp, got_life, none_left, none_of;
    ensures \result == CSQ_OK ==> none_left && none_of == file;
    ensures !locked && held == \old(held);
    ensures \result == CSQ_OK && done - \old(done) <= 0xFFFFFFFF
        ==> *completed == done - \old(done);
    ensures \result != CSQ_OK ==> *completed == \old(*completed);
    ensures callback != \null && callback->before_completion != \null
        ==> told - \old(told) == done - \old(done); */
CSQ_INLINE uint32_t csq_drain(struct csq_queue *queue, struct csq_pass *pass, uint32_t file,
                              const struct csq_lock *lock, const struct csq_callback *callback,
                              uint32_t *completed);

/*@ requires can_be_called(lock, completed);
    requires callback == \null || \valid_read(callback);
    requires !locked && held >= 0;
    assigns *completed, locked, held, done, told, woken, got_irp, got_life, none_left, none_of,
        closed, closed_file;
    ensures \result == CSQ_OK ==> closed && closed_file == file;
    ensures \result == CSQ_OK ==> none_left && none_of == file;
    ensures !locked && held == \old(held);
    ensures \result == CSQ_OK && done - \old(done) <= 0xFFFFFFFF
        ==> *completed == done - \old(done);
    ensures \result != CSQ_OK ==> *completed == \old(*completed);
    ensures callback != \null && callback->before_completion != \null
        ==> told - \old(told) == done - \old(done); */
CSQ_INLINE uint32_t csq_cleanup(struct csq_queue *queue, struct csq_pass *pass, uint32_t file,
                                const struct csq_lock *lock, const struct csq_callback *callback,
                                uint32_t *completed);
