/* The control codes that inverted.c knows. A call waits for as long as there is no event. */
#include "iocsq_test.h"

extern const ULONG DriverControls[];
const ULONG DriverControls[] = {
    CTL_CODE(FILE_DEVICE_UNKNOWN, 0x801, METHOD_BUFFERED, FILE_ANY_ACCESS),
    CTL_CODE(FILE_DEVICE_UNKNOWN, 0x802, METHOD_BUFFERED, FILE_ANY_ACCESS), 0
};

BOOLEAN MayWait(PIRP Irp);
extern const IOCSQ_POLICY DriverPolicy;
const IOCSQ_POLICY DriverPolicy = { .Waits = MayWait };
