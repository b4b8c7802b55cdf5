/* What the callbacks of requests.c mean is the usual; reads wait for a write, and for the next
 * one. */
#include "iocsq_test.h"

static BOOLEAN Waits(PIRP Irp) {
    return IoGetCurrentIrpStackLocation(Irp)->MajorFunction == IRP_MJ_READ;
}
extern const IOCSQ_POLICY DriverPolicy;
const IOCSQ_POLICY DriverPolicy = { .Waits = Waits };
