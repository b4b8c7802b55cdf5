/* What iocsq is to know of @NAME@ beside its code: IOCSQ_POLICY of iocsq_test.h has more. */
#include "iocsq_test.h"

/* Of the skeleton's driver.c: a read may wait for as long as no write comes. This hides each lost
 * wake-up of a read, so say here what your own driver lets wait, or put IocsqNoneWaits in its
 * place. What may not wait has to be completed within two seconds. */
static BOOLEAN Waits(PIRP Irp) {
    return IoGetCurrentIrpStackLocation(Irp)->MajorFunction == IRP_MJ_READ;
}
extern const IOCSQ_POLICY DriverPolicy;
const IOCSQ_POLICY DriverPolicy = { .Waits = Waits };

/* The codes of the device controls that it queues, and a 0 after them. */
extern const ULONG DriverControls[];
const ULONG DriverControls[] = { 0 };
