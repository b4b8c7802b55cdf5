/* The policy of the drivers whose device is switched on and off: while it is off, reads and writes
 * wait. */
#include "codes.h"
#include "iocsq_test.h"

static BOOLEAN MayWait(PIRP Irp) {
    return IoGetCurrentIrpStackLocation(Irp)->MajorFunction != IRP_MJ_DEVICE_CONTROL;
}
extern const IOCSQ_POLICY DriverPolicy;
const IOCSQ_POLICY DriverPolicy = { .Waits = MayWait, .NoneLate = TRUE };
extern const ULONG DriverControls[];
const ULONG DriverControls[] = { CODE_ON, CODE_OFF, 0 };
