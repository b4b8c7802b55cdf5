/* Of a driver's test that names no control codes. */
#include "iocsq_test.h"

extern const ULONG DriverControls[];
const ULONG DriverControls[] = { 0 };
