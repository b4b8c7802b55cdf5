/* Calls of csq.h, each in a phase of its own, for c/machine-code, which reads from valgrind what
 * each does to memory. */
#include "check.h"

/* Its writes tell where a call begins. */
volatile uint32_t phase;

#define PHASE(call, code) (phase++, IS(call, code))

int main(void) {
    struct device device = device_of(size_of(3, 1, CSQ_VECTOR));
    struct csq_queue *queue = &device.queue;
    struct csq_pass *pass = &device.passes[0];
    struct csq_irp irp = { UNWRITTEN, UNWRITTEN };
    uint32_t found = UNWRITTEN, life = UNWRITTEN;
    check_test = "calls of the machine";
    /* Not of IRP 0: where a call observes the execution it loads the first word, its flag. */
    PHASE(csq_insert(queue, pass, 1, 0, 0, &irp), CSQ_OK);
    PHASE(csq_remove_next(queue, pass, CSQ_ANY, &irp), CSQ_OK);
    PHASE(csq_put_back(queue, pass, irp, 0, &irp), CSQ_OK);
    PHASE(csq_remove(queue, pass, irp), CSQ_OK);
    PHASE(csq_put_back(queue, pass, irp, 0, &irp), CSQ_OK);
    PHASE(csq_mark_cancel(pass, irp, &found), CSQ_OK);
    PHASE(csq_cancel_routine(queue, pass, irp), CSQ_OK);
    PHASE(csq_complete_cancelled(pass, irp), CSQ_OK);
    PHASE(csq_reuse(queue, pass, irp, &life), CSQ_OK);
    irp.life = life;
    PHASE(csq_insert(queue, pass, 1, 0, 0, &irp), CSQ_OK);
    PHASE(csq_remove(queue, pass, irp), CSQ_OK);
    PHASE(csq_mark_cancel(pass, irp, &found), CSQ_OK);
    PHASE(csq_put_back(queue, pass, irp, 0, &irp), CSQ_CANCELLED);
    PHASE(csq_complete_cancelled(pass, irp), CSQ_OK);
    PHASE(csq_mark_cancel(pass, irp_in(2, 0), &found), CSQ_OK);
    PHASE(csq_insert(queue, pass, 2, 0, 0, &irp), CSQ_CANCELLED);
    PHASE(csq_complete_cancelled(pass, irp), CSQ_OK);
    phase++;
    end(&device);
    check_end();
    return DONE();
}
