/* What event.c knows: device controls, of which one waits for an event. */
#include "iocsq_test.h"

extern BOOLEAN MayWait(PIRP Irp); /* of event.c */
extern const IOCSQ_POLICY DriverPolicy;
const IOCSQ_POLICY DriverPolicy = { .Waits = MayWait };

extern const ULONG DriverControls[];
const ULONG DriverControls[] = {
    CTL_CODE(FILE_DEVICE_UNKNOWN, 0x900, METHOD_OUT_DIRECT, FILE_READ_DATA),
    CTL_CODE(FILE_DEVICE_UNKNOWN, 0x901, METHOD_BUFFERED, FILE_WRITE_DATA), 0
};
