/* What the callbacks of keys.c mean: a peek context of their own. Reads wait for a write. */
#include "iocsq_test.h"

BOOLEAN IsWanted(PIRP Irp, PVOID PeekContext);
static BOOLEAN Waits(PIRP Irp) {
    return IoGetCurrentIrpStackLocation(Irp)->MajorFunction == IRP_MJ_READ;
}
extern const IOCSQ_POLICY DriverPolicy;
const IOCSQ_POLICY DriverPolicy = { .Match = IsWanted, .Waits = Waits };
