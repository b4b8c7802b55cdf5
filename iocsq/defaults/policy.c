/* Of a driver's test that has no policy: its callbacks mean the usual. Where a weak name has to be
 * defined (Windows), these files are an archive, of which the linker takes what else is missing. */
#include "iocsq_test.h"

extern const IOCSQ_POLICY DriverPolicy;
const IOCSQ_POLICY DriverPolicy = { .Match = NULL };
