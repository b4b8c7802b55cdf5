/* What the checker is to know of idle.c: its peeks say that the device is idle, and it ends each
 * request by itself. With WRONG 2 the policy says nothing of the peeks, so iocsq undoes what its
 * own ones write. */
#include "iocsq_test.h"

extern const IOCSQ_POLICY DriverPolicy;
const IOCSQ_POLICY DriverPolicy = { .Waits = IocsqNoneWaits, .PeekHasEffects = WRONG != 2 };
