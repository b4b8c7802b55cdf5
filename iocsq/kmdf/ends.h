/* The policy of those drivers that end each request by themselves, also of a file object that was
 * cleaned up. */
#include "iocsq_test.h"

extern const IOCSQ_POLICY DriverPolicy;
const IOCSQ_POLICY DriverPolicy = { .Waits = IocsqNoneWaits, .KeepsAtCleanup = TRUE };
