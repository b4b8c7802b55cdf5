/* The cleanup of state.c may leave what another thread has unlinked, and is about to complete. */
#include "iocsq_test.h"

static BOOLEAN MayWait(PIRP Irp) {
    return IoGetCurrentIrpStackLocation(Irp)->MajorFunction == IRP_MJ_READ;
}
extern const IOCSQ_POLICY DriverPolicy;
const IOCSQ_POLICY DriverPolicy = { .Waits = MayWait, .KeepsAtCleanup = TRUE, .NoneLate = TRUE };
