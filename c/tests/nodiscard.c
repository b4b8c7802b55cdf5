/* Ignores the result of each call that is CSQ_NODISCARD: each must be a warning, and each such call
 * stands here. */
#define _POSIX_C_SOURCE 200809L
#include <csq_replay.h>
#include <csq_requests.h>

void ignore(struct csq_queue *queue, struct csq_pass *pass, const struct csq_size *size,
            const struct csq_lock *lock, const struct csq_callback *callback,
            const struct csq_events *events, struct csq_irp *irp, uint32_t *out);

void ignore(struct csq_queue *queue, struct csq_pass *pass, const struct csq_size *size,
            const struct csq_lock *lock, const struct csq_callback *callback,
            const struct csq_events *events, struct csq_irp *irp, uint32_t *out) {
    csq_new_queue(queue, size);
    csq_new_queue_with_file_limits(queue, size, out, 1);
    csq_new(queue, size);
    csq_new_with_file_limits(queue, size, out, 1);
    csq_free_queue(queue);
    csq_free(queue);
    csq_close(queue);
    csq_take_pass(queue, pass);
    csq_give_back(queue, pass);
    csq_abandon_pass(pass);
    csq_insert(queue, pass, 0, 0, 0, irp);
    csq_remove_next(queue, pass, CSQ_ANY, irp);
    csq_remove(queue, pass, *irp);
    csq_put_back(queue, pass, *irp, 1, irp);
    csq_cancel_routine(queue, pass, *irp);
    csq_cancel_owed(queue, pass, *irp);
    csq_close_file(queue, pass, 0);
    csq_reuse(queue, pass, *irp, out);
    csq_mark_cancel(pass, *irp, out);
    csq_complete(pass, *irp, 0);
    csq_complete_cancelled(pass, *irp);
    csq_cancel(queue, pass, *irp, lock, callback, out);
    csq_drain(queue, pass, CSQ_ANY, lock, callback, out);
    csq_cleanup(queue, pass, 0, lock, callback, out);
    csq_cancel_with(queue, pass, *irp, lock, events, out);
    csq_drain_with(queue, pass, CSQ_ANY, lock, events, out);
    csq_cleanup_with(queue, pass, 0, lock, events, out);
}

void ignore_ledger(struct csq_ledger *ledger, const struct csq_size *size, struct csq_irp *name,
                   struct csq_ended *ended, uint32_t *out);

void ignore_ledger(struct csq_ledger *ledger, const struct csq_size *size, struct csq_irp *name,
                   struct csq_ended *ended, uint32_t *out) {
    csq_ledger_new(ledger, size);
    csq_ledger_new_with_file_limits(ledger, size, out, 1);
    csq_ledger_free(ledger);
    csq_ledger_close_file(ledger, 0);
    csq_ledger_begin(ledger, 0, 0, CSQ_NEVER, name);
    csq_ledger_take(ledger, CSQ_ANY, name, out);
    csq_ledger_put_back(ledger, *name, 0);
    csq_ledger_finish(ledger, *name, 0, ended);
    csq_ledger_cancel(ledger, *name, CSQ_WHY_CANCEL);
    csq_ledger_drain_next(ledger, CSQ_ANY, CSQ_WHY_DRAIN, name, out);
    csq_ledger_expire(ledger, 0, name, out);
    csq_ledger_end(ledger, *name, ended);
}

void ignore_replay(struct csq_replay *replay, const struct csq_size *size,
                   const struct csq_step *step, struct csq_refusal *refusal, uint32_t *found);

void ignore_replay(struct csq_replay *replay, const struct csq_size *size,
                   const struct csq_step *step, struct csq_refusal *refusal, uint32_t *found) {
    csq_replay_new(replay, size);
    csq_replay_step(replay, step, found, refusal);
    csq_replay_rest(replay);
}

void ignore_requests(struct csq_requests *requests, struct csq_request *request,
                     struct csq_irp *name, void **value, uint32_t *out);

void ignore_requests(struct csq_requests *requests, struct csq_request *request,
                     struct csq_irp *name, void **value, uint32_t *out) {
    const struct csq_submit submit = { *value, 0, 0, 0, 0 };
    struct csq_requests_stats stats;
    struct csq_quiet quiet;
    int fd;
    csq_requests_new(&requests, NULL, NULL, NULL);
    csq_requests_free(&requests);
    csq_requests_submit(requests, *value, 0, 0, name);
    csq_requests_submit_with(requests, &submit, name);
    csq_requests_submit_many(requests, &submit, 1, name, out);
    csq_requests_next(requests, CSQ_ANY, CSQ_FOREVER, request);
    csq_requests_next_many(requests, CSQ_ANY, CSQ_FOREVER, request, 1, out);
    csq_requests_complete(requests, request, 0);
    csq_requests_complete_many(requests, request, 1, 0, out);
    csq_requests_put_back(requests, request, 0);
    csq_requests_cancel(requests, *name, value);
    csq_requests_cancel_with(requests, *name, NULL, value);
    csq_requests_start_clock(requests);
    csq_requests_drain(requests, CSQ_ANY, 0);
    csq_requests_drain_with(requests, CSQ_ANY, 0, NULL);
    csq_requests_drain_start(requests, CSQ_ANY, &quiet);
    csq_requests_cleanup(requests, 0, 0);
    csq_requests_cleanup_with(requests, 0, 0, NULL);
    csq_requests_cleanup_start(requests, 0, &quiet);
    csq_requests_fd(requests, 0, &fd);
    csq_requests_room_fd(requests, 0, &fd);
    csq_requests_read_stats(requests, &stats);
}
