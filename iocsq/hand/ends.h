/* The policy of those drivers that end each request by themselves. */
#include "iocsq_test.h"

extern const IOCSQ_POLICY DriverPolicy;
const IOCSQ_POLICY DriverPolicy = { .Waits = IocsqNoneWaits, .NoneLate = TRUE };
