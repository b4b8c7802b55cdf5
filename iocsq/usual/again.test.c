/* What the callbacks of again.c mean: an insert with a context puts its IRP first. */
#include "iocsq_test.h"

static int Place(PIRP Irp, PVOID InsertContext) {
    (void)Irp;
    return InsertContext != NULL;
}
extern const IOCSQ_POLICY DriverPolicy;
const IOCSQ_POLICY DriverPolicy = { .Place = Place };
