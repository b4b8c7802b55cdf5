/* IRQL: what each thread has, and at which a call may be made. */
#include "internal.h"

KIRQL NTAPI KeGetCurrentIrql(VOID) {
    return iocsq_own.irql;
}

void iocsq_set_irql(KIRQL level) {
    iocsq_own.irql = level;
}

KIRQL NTAPI KfRaiseIrql(KIRQL NewIrql) {
    KIRQL before = iocsq_own.irql;
    if (NewIrql < before) {
        iocsq_disagree(NULL, "KeRaiseIrql from %u to %u", before, NewIrql);
    }
    iocsq_own.irql = NewIrql;
    return before;
}

VOID NTAPI KeLowerIrql(KIRQL NewIrql) {
    if (NewIrql > iocsq_own.irql) {
        iocsq_disagree(NULL, "KeLowerIrql from %u to %u", iocsq_own.irql, NewIrql);
    }
    if (NewIrql < DISPATCH_LEVEL && iocsq_spin_lock_count() > 0) {
        iocsq_disagree(NULL, "KeLowerIrql to %u with a spin lock held", NewIrql);
    }
    iocsq_own.irql = NewIrql;
}

void iocsq_expect_irql(KIRQL most, const char *call) {
    static const char *const names[] = { "PASSIVE_LEVEL", "APC_LEVEL", "DISPATCH_LEVEL" };
    if (iocsq_own.irql > most) {
        const char *level =
            iocsq_own.irql <= DISPATCH_LEVEL ? names[iocsq_own.irql] : "a higher IRQL";
        iocsq_disagree(NULL, "%s at %s", call, level);
    }
}

VOID IocsqPagedCode(VOID) {
    iocsq_expect_irql(APC_LEVEL, "PAGED_CODE");
}
