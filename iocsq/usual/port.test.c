/* What the callbacks of port.c mean: a peek context of its own, for reads whose deadline is
 * over. */
#include "iocsq_test.h"

BOOLEAN SerialIsWanted(PIRP Irp, PVOID PeekContext);
extern const IOCSQ_POLICY DriverPolicy;
const IOCSQ_POLICY DriverPolicy = { .Match = SerialIsWanted, .DispatchSends = TRUE };
