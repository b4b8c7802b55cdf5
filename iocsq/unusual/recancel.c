/* A read that was cancelled before its cancel routine was set is cancelled again by the dispatch
 * routine, which has a reference to it. */
#include "counted.h"

static VOID Queue(PEXTENSION Extension, PREQUEST Request) {
    BOOLEAN Closed = Link(Extension, Request);
    if (Request->Irp->Cancel || Closed) {
        IoCancelIrp(Request->Irp); /* finds the routine, or another one has */
    }
    Release(Request);
}
