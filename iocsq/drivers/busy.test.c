/* What the callbacks of busy.c mean: an insert context puts an IRP first. */
#include "iocsq_test.h"

static int Place(PIRP Irp, PVOID InsertContext) {
    (void)Irp;
    return InsertContext != NULL;
}
extern const IOCSQ_POLICY DriverPolicy;
const IOCSQ_POLICY DriverPolicy = { .Place = Place };
