/* The look at Irp->Cancel comes once the lock is released: the dispatch routine has a reference to
 * the request, so nobody completes it before. */
#include "counted.h"

static VOID Queue(PEXTENSION Extension, PREQUEST Request) {
    BOOLEAN Closed = Link(Extension, Request);
    if ((Request->Irp->Cancel || Closed) && IoSetCancelRoutine(Request->Irp, NULL) != NULL) {
        Unlink(Extension, Request, STATUS_CANCELLED);
        Release(Request); /* the cancel routine's */
    }
    Release(Request);
}
