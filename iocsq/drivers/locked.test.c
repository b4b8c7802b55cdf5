/* What locked.c leaves waiting: reads, until a write or a device control. Where it is wrong in that
 * its lock is one that threads share, nobody cancels at DISPATCH_LEVEL. */
#include "iocsq_test.h"

static BOOLEAN Waits(PIRP Irp) {
    return IoGetCurrentIrpStackLocation(Irp)->MajorFunction == IRP_MJ_READ;
}
extern const IOCSQ_POLICY DriverPolicy;
const IOCSQ_POLICY DriverPolicy = { .Waits = Waits, .PassiveCancels = WRONG == 6 };
