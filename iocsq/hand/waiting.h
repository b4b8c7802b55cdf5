/* The policy of those drivers whose reads wait for a write. A read that comes after the cleanup of
 * its file object never waits. */
#include "iocsq_test.h"

static BOOLEAN MayWait(PIRP Irp) {
    return IoGetCurrentIrpStackLocation(Irp)->MajorFunction == IRP_MJ_READ;
}
extern const IOCSQ_POLICY DriverPolicy;
const IOCSQ_POLICY DriverPolicy = { .Waits = MayWait, .NoneLate = TRUE };
