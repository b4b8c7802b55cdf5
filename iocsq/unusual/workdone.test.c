/* A work item of workdone.c completes what is cancelled. */
#include "iocsq_test.h"

static BOOLEAN MayWait(PIRP Irp) {
    return IoGetCurrentIrpStackLocation(Irp)->MajorFunction == IRP_MJ_READ;
}
extern const IOCSQ_POLICY DriverPolicy;
const IOCSQ_POLICY DriverPolicy = { .Waits = MayWait, .CompletesLater = TRUE };
