/* What the callbacks of slots.c mean: an insert puts its IRP first. Reads wait for a write. */
#include "iocsq_test.h"

static int Place(PIRP Irp, PVOID InsertContext) {
    (void)Irp, (void)InsertContext;
    return 1;
}
static BOOLEAN Waits(PIRP Irp) {
    return IoGetCurrentIrpStackLocation(Irp)->MajorFunction == IRP_MJ_READ;
}
extern const IOCSQ_POLICY DriverPolicy;
const IOCSQ_POLICY DriverPolicy = { .Place = Place, .Waits = Waits };
