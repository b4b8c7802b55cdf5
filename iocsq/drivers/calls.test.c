/* What the callbacks of calls.c mean: a peek context of their own, which is never null. WRONG is 1
 * where the policy is missing. */
#include "iocsq_test.h"

#ifndef WRONG
#define WRONG 0
#endif
#define CODE(Function) CTL_CODE(FILE_DEVICE_UNKNOWN, Function, METHOD_BUFFERED, FILE_ANY_ACCESS)

extern const ULONG DriverControls[];
const ULONG DriverControls[] = { CODE(0x801), CODE(0x802), CODE(0x803), CODE(0x804), 0 };

BOOLEAN IsWanted(PIRP Irp, PVOID PeekContext);
static BOOLEAN Match(PIRP Irp, PVOID PeekContext) {
    return WRONG == 0 ? IsWanted(Irp, PeekContext)
                      : PeekContext == NULL || IsWanted(Irp, PeekContext);
}
/* A call waits until its kind of event is raised. */
static BOOLEAN Waits(PIRP Irp) {
    ULONG code = IoGetCurrentIrpStackLocation(Irp)->Parameters.DeviceIoControl.IoControlCode;
    return code == CODE(0x801) || code == CODE(0x802);
}
extern const IOCSQ_POLICY DriverPolicy;
const IOCSQ_POLICY DriverPolicy = { .Match = Match, .NoAudit = WRONG == 0, .Waits = Waits };
