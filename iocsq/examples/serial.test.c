/* What the callbacks of serial.c mean: a peek context of their own, and an insert context puts an
 * IRP first. A write waits for room. */
#include "iocsq_test.h"

BOOLEAN IsWanted(PIRP Irp, PVOID PeekContext);
BOOLEAN MayWait(PIRP Irp);
static int Place(PIRP Irp, PVOID InsertContext) {
    (void)Irp;
    return InsertContext != NULL;
}
extern const IOCSQ_POLICY DriverPolicy;
const IOCSQ_POLICY DriverPolicy = {
    .Match = IsWanted, .Place = Place, .Waits = MayWait, .Within = 100
};
