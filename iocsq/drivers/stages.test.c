/* What the callbacks of stages.c mean: an insert context puts an IRP first. Reads wait for a
 * write. */
#include "iocsq_test.h"

static int Place(PIRP Irp, PVOID InsertContext) {
    (void)Irp;
    return InsertContext != NULL;
}
static BOOLEAN Waits(PIRP Irp) {
    return IoGetCurrentIrpStackLocation(Irp)->MajorFunction == IRP_MJ_READ;
}
extern const IOCSQ_POLICY DriverPolicy;
const IOCSQ_POLICY DriverPolicy = { .Place = Place, .Waits = Waits };
