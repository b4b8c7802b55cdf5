/* What packet.c leaves at a cleanup: requests that the device ends soon, one after the other. */
#include "iocsq_test.h"

extern const IOCSQ_POLICY DriverPolicy;
const IOCSQ_POLICY DriverPolicy = { .Waits = IocsqNoneWaits,
                                    .KeepsAtCleanup = TRUE };
