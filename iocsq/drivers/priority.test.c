/* What the callbacks of priority.c mean: an order of their own, and a peek context of their own;
 * their lock is a fast mutex. Reads and device controls wait for a write. */
#include "iocsq_test.h"

BOOLEAN IsWanted(PIRP Irp, PVOID PeekContext);
static BOOLEAN Waits(PIRP Irp) {
    return IoGetCurrentIrpStackLocation(Irp)->MajorFunction != IRP_MJ_WRITE;
}
extern const IOCSQ_POLICY DriverPolicy;
const IOCSQ_POLICY DriverPolicy = {
    .Match = IsWanted, .AnyOrder = TRUE, .PassiveCancels = TRUE, .Waits = Waits
};
