/* What the checker is to know of pass.c: a read may wait until a write sends it on. */
#include "iocsq_test.h"

static BOOLEAN IsRead(PIRP Irp) {
    return IoGetCurrentIrpStackLocation(Irp)->MajorFunction == IRP_MJ_READ;
}

extern const IOCSQ_POLICY DriverPolicy;
const IOCSQ_POLICY DriverPolicy = { .Waits = IsRead };
