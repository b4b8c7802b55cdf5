/* What the callbacks of pipe.c mean: an insert context puts an IRP first. A read waits for a write
 * of the other end, and a write for a read. */
#include "iocsq_test.h"

BOOLEAN MayWait(PIRP Irp);
static int Place(PIRP Irp, PVOID InsertContext) {
    (void)Irp;
    return InsertContext != NULL;
}
extern const IOCSQ_POLICY DriverPolicy;
const IOCSQ_POLICY DriverPolicy = { .Place = Place, .Waits = MayWait };
