/* What the checker is to know of transfer.c. */
#include "iocsq_test.h"

extern BOOLEAN MayWait(PIRP Irp); /* of transfer.c */
extern const IOCSQ_POLICY DriverPolicy;
const IOCSQ_POLICY DriverPolicy = { .Waits = MayWait };
