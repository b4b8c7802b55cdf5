/* What the callbacks of later.c mean: a cancelled IRP is completed after its callback. Reads wait
 * for a write. */
#include "iocsq_test.h"

static BOOLEAN Waits(PIRP Irp) {
    return IoGetCurrentIrpStackLocation(Irp)->MajorFunction == IRP_MJ_READ;
}
extern const IOCSQ_POLICY DriverPolicy;
const IOCSQ_POLICY DriverPolicy = { .CompletesLater = TRUE, .Waits = Waits };
