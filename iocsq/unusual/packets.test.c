/* packets.c ends each request by itself, and leaves it to that at a cleanup. */
#include "iocsq_test.h"

extern const IOCSQ_POLICY DriverPolicy;
const IOCSQ_POLICY DriverPolicy = { .Waits = IocsqNoneWaits, .KeepsAtCleanup = TRUE };
