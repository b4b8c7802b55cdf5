/* Reads wait for a write. One that is just being completed may outlive its file object's cleanup
 * for as long as that takes. */
#include "iocsq_test.h"

static BOOLEAN MayWait(PIRP Irp) {
    return IoGetCurrentIrpStackLocation(Irp)->MajorFunction == IRP_MJ_READ;
}
extern const IOCSQ_POLICY DriverPolicy;
const IOCSQ_POLICY DriverPolicy = { .Waits = MayWait, .KeepsAtCleanup = TRUE };
