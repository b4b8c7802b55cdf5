/* What the callbacks of counted.c mean: their lock is a mutex. */
#include "iocsq_test.h"

extern const IOCSQ_POLICY DriverPolicy;
const IOCSQ_POLICY DriverPolicy = { .PassiveCancels = TRUE };
