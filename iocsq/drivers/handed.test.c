/* What the callbacks of handed.c mean is the usual; reads and device controls wait for a write, and
 * perhaps once more. */
#include "iocsq_test.h"

static BOOLEAN Waits(PIRP Irp) {
    return IoGetCurrentIrpStackLocation(Irp)->MajorFunction != IRP_MJ_WRITE;
}
extern const IOCSQ_POLICY DriverPolicy;
const IOCSQ_POLICY DriverPolicy = { .Waits = Waits };
