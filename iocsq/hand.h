/* IRPs whose cancel routine the driver sets itself (hand.c): what is known of each, step by step.
 */
#ifndef HAND_H
#define HAND_H
#include <stdbool.h>
#include <stdint.h>

struct iocsq_irp;

/* What a driver does with the cancel routine that it sets itself (hand.c). */
enum iocsq_hand_state {
    IOCSQ_HAND_NONE,  /* it has set none yet */
    IOCSQ_HAND_ARMED, /* the IRP has one */
    IOCSQ_HAND_OWED,  /* a cancel took it, and the routine has to end the IRP */
    IOCSQ_HAND_HELD,  /* the driver took it back, or the routine took the IRP out */
    IOCSQ_HAND_DONE
};
struct iocsq_hand {
    enum iocsq_hand_state state;
    bool armed;           /* the driver has set a routine, since the IRP was in no IO_CSQ */
    const char *left_out; /* why its steps are no schedule; null: they are one */
    bool linked;          /* it is in a list */
    bool begun, returned; /* its routine, which a cancel took */
    uint32_t holder;      /* the pass that owes or holds it */
    uint32_t arming;      /* the thread that has set the routine, and has yet to look at the flag;
                           * 0: none */
    bool released;        /* that thread has released its last lock since, */
    uint32_t released_at; /* and this was the number of steps then */
    bool started;         /* IoStartPacket has set it, and the IRP is the device's current one */
    uint32_t by;          /* the pass by which it was set last, */
    const void *set_at;   /* and the address to which that call returned */
    uint32_t must_disarm; /* the thread that found the flag after it */
    uint32_t looked;      /* a thread that read Irp->Cancel before; with the next three, 0: none */
    uint32_t looked_at;   /* the number of steps then */
    uint32_t looked_in;   /* which time it was that it had the cancel spin lock; 0: it hadn't */
    bool saw;             /* what it read */
    uint64_t told;        /* the threads, a bit each, to which IoSetCancelRoutine(Irp, NULL)
                           * returned NULL since the routine was taken */
    uint32_t doubtful;    /* a thread that was told so, and completed it; 0: none */
    uint32_t doubtful_at; /* the number of steps before */
    uint32_t thief;       /* a thread that completed what another owed; 0: none */
    bool dangling;        /* its routine completed it while it was linked */
    uint16_t flagging;    /* cancellers, a bit each, whose flag the queue beside has yet to note */
    uint16_t flagged;     /* those whose flag was noted before that */
};

bool iocsq_is_by_hand(void);               /* the driver has initialized no IO_CSQ (coverage.c) */
bool iocsq_has_framework(void);            /* a KMDF driver is loaded (wdf.c) */
void iocsq_hand_look(struct iocsq_irp *i); /* the driver reads Irp->Cancel */
/* IoSetCancelRoutine, which returns to this address, and whether it returned a routine. */
void iocsq_hand_set(struct iocsq_irp *i, bool sets, bool found, const void *at);
void iocsq_hand_flag(struct iocsq_irp *i);                       /* IoCancelIrp sets Irp->Cancel, */
void iocsq_hand_take(struct iocsq_irp *i, bool found);           /* and takes the routine, */
void iocsq_hand_begin(struct iocsq_irp *i);                      /* which begins */
void iocsq_hand_return(struct iocsq_irp *i);                     /* and returns */
/* The queue beside notes the flag of a canceller, and that it finds no routine. */
void iocsq_hand_mark(struct iocsq_irp *i, uint32_t pass);
void iocsq_hand_link(struct iocsq_irp *i, bool links); /* into a list, or out of it */
void iocsq_hand_done(struct iocsq_irp *i);             /* IoCompleteRequest */
void iocsq_hand_release(void);                         /* this thread has no lock any more */
void iocsq_hand_let_go(void);                          /* it leaves the driver */
void iocsq_hand_start(struct iocsq_irp *i);            /* IoStartPacket goes on to StartIo */
/* From here on the IRP is in an IO_CSQ; `goes_on`: in which it was before. */
void iocsq_hand_end(struct iocsq_irp *i, bool goes_on);
uint32_t iocsq_hand_pass(const struct iocsq_irp *i); /* by which the steps say that it is held */
void iocsq_explain_hand(const struct iocsq_irp *i);  /* what a report alone doesn't say */

#endif
