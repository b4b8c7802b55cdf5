/* What the checker is to know of current.c: its peeks say which IRP is the device's current one,
 * and it ends each request by itself. With WRONG 2 and 3 the policy says nothing of the peeks, so
 * iocsq undoes what its own ones write. */
#include "iocsq_test.h"

extern const IOCSQ_POLICY DriverPolicy;
const IOCSQ_POLICY DriverPolicy = { .Waits = IocsqNoneWaits, .PeekHasEffects = WRONG < 2 };
