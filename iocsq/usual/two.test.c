/* What the callbacks of two.c mean: a peek context is any. A request may wait for one of the other
 * kind. */
#include "iocsq_test.h"

static BOOLEAN Match(PIRP Irp, PVOID PeekContext) {
    (void)Irp, (void)PeekContext;
    return TRUE;
}

extern BOOLEAN MayWait(PIRP Irp); /* of two.c */
extern const IOCSQ_POLICY DriverPolicy;
const IOCSQ_POLICY DriverPolicy = { .Match = Match, .Waits = MayWait };
