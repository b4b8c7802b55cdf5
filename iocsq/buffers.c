/* A request's buffers, as the I/O manager has them: filled from the sender's, and copied back at
 * its completion. Each is a copy, so that what the driver writes too late is seen. */
#include "internal.h"
#include "poison.h"

#include <stdlib.h>

/* What the pool has at this place of a buffer. Each is another byte than the ones beside it, so
 * that a driver that fills in one and the same doesn't write what was there. */
static UCHAR of_pool(size_t at) {
    return (UCHAR)(IOCSQ_GONE + 59 * at);
}

static void allocate(struct iocsq_buffer *made, uint32_t size, const void *of_sender,
                     uint32_t filled) {
    made->size = size;
    made->at = size ? malloc(size) : NULL;
    if (size && !made->at) {
        iocsq_fail("no memory for a buffer");
    }
    for (uint32_t at = 0; at < size; at++) {
        made->at[at] = of_pool(at);
    }
    iocsq_begin_memory(made->at, size); /* it may have been the pool's */
    made->filled = of_sender ? filled : 0;
    if (size && of_sender) {
        memcpy(made->at, of_sender, filled);
    }
}

static void give_system(struct iocsq_irp *i, uint32_t size, uint32_t filled) {
    allocate(&i->buffer, size, i->sender_buffer, filled);
    i->irp.AssociatedIrp.SystemBuffer = i->buffer.at;
}

static void give_direct(struct iocsq_irp *i, uint32_t size) {
    allocate(&i->direct, size, i->sender_buffer, size);
    MDL mdl = { NULL, i->direct.at, i->direct.at, size, 0 };
    i->mdl = mdl;
    i->irp.MdlAddress = size ? &i->mdl : NULL;
}

void iocsq_give_buffers(struct iocsq_irp *i, struct iocsq_sent sent) {
    bool is_control = i->major == IRP_MJ_DEVICE_CONTROL;
    i->irp.UserBuffer = i->sender_buffer = sent.buffer;
    i->output = sent.buffer ? sent.output : 0;
    if (sent.buffer) { /* it may have been that of a request before */
        iocsq_begin_memory(sent.buffer, sent.input > sent.output ? sent.input : sent.output);
    }
    switch (sent.method) {
    case METHOD_BUFFERED:
        give_system(i, sent.input > sent.output ? sent.input : sent.output, sent.input);
        break;
    case METHOD_NEITHER: i->output = 0; break;
    default:
        if (is_control) {
            give_system(i, sent.input, sent.input);
        }
        give_direct(i, is_control || sent.output ? sent.output : sent.input);
    }
}

static void take(struct iocsq_buffer *of) {
    if (of->at) {
        memset(of->at, IOCSQ_GONE, of->size);
        POISON(of->at, of->size);
    }
}

enum { UNFILLED = 3 }; /* of fewer bytes it may be chance that they are as they were */

/* What a driver says it filled in of its system buffer and didn't, the sender gets as it was in the
 * pool. */
static void expect_filled(const struct iocsq_irp *i, size_t count) {
    size_t at = count;
    while (at > i->buffer.filled && i->buffer.at[at - 1] == of_pool(at - 1)) {
        at--;
    }
    if (count - at >= UNFILLED) {
        iocsq_disagree(i,
                       "irp %u is completed with %zu bytes, and the last %zu of them were never "
                       "filled in: the sender gets what was in the pool",
                       i->index, count, count - at);
    }
}

void iocsq_take_buffers(struct iocsq_irp *i) {
    size_t count = i->information < i->output ? i->information : i->output;
    if (i->direct.at) {
        memcpy(i->sender_buffer, i->direct.at, i->output); /* the sender's own pages: whatever the
                                                            * status is */
    } else if (i->buffer.at && !NT_ERROR(i->status) && count > 0) {
        expect_filled(i, count);
        memcpy(i->sender_buffer, i->buffer.at, count);
    }
    take(&i->buffer);
    take(&i->direct);
}

static void end(const struct iocsq_buffer *of, const void *place) {
    if (of->at) {
        iocsq_end_memory(of->at, of->size, "IoCompleteRequest", place);
    }
}

void iocsq_end_buffers(const struct iocsq_irp *i, const void *place) {
    end(&i->buffer, place);
    end(&i->direct, place);
}

static void free_one(struct iocsq_buffer *of) {
    if (of->at) {
        UNPOISON(of->at, of->size);
    }
    free(of->at);
    of->at = NULL;
}

void iocsq_free_buffers(struct iocsq_irp *i) {
    free_one(&i->buffer);
    free_one(&i->direct);
}

static void check_one(const struct iocsq_irp *i, const struct iocsq_buffer *of) {
    if (!of->at) {
        return;
    }
    UNPOISON(of->at, of->size);
    for (uint32_t at = 0; at < of->size; at++) {
        if (of->at[at] != IOCSQ_GONE) {
            iocsq_disagree(i, "the buffer of irp %u was written to after it was completed",
                           i->index);
        }
    }
    POISON(of->at, of->size);
}

void iocsq_check_buffers_untouched(const struct iocsq_irp *i) {
    check_one(i, &i->buffer);
    check_one(i, &i->direct);
}
