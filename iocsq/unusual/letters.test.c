/* A read may wait while there is no letter. */
#include "iocsq_test.h"

extern BOOLEAN MayWait(PIRP Irp); /* of letters.c */
extern const IOCSQ_POLICY DriverPolicy;
const IOCSQ_POLICY DriverPolicy = { .Waits = MayWait, .Within = 500, .NoneLate = TRUE };
