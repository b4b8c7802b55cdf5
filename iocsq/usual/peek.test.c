/* What the checker is to know of peek.c: a read may wait until there is a write of its file
 * object. */
#include "iocsq_test.h"

static BOOLEAN IsRead(PIRP Irp) {
    return IoGetCurrentIrpStackLocation(Irp)->MajorFunction == IRP_MJ_READ;
}

extern const IOCSQ_POLICY DriverPolicy;
const IOCSQ_POLICY DriverPolicy = { .Waits = IsRead };
