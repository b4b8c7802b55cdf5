/* Each read of mailbox.c ends with the next post at the latest. */
#include "iocsq_test.h"

extern const IOCSQ_POLICY DriverPolicy;
const IOCSQ_POLICY DriverPolicy = { .Waits = IocsqNoneWaits, .Within = 500 };
