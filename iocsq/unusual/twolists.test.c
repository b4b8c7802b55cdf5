/* Of twolists.c reads and writes wait for each other. */
#include "iocsq_test.h"

static BOOLEAN MayWait(PIRP Irp) {
    return IoGetCurrentIrpStackLocation(Irp)->MajorFunction != IRP_MJ_DEVICE_CONTROL;
}
extern const IOCSQ_POLICY DriverPolicy;
const IOCSQ_POLICY DriverPolicy = { .Waits = MayWait, .NoneLate = TRUE };
