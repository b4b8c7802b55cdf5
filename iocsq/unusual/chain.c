/* The queue is a chain of links of its own: DriverContext[0] of each IRP points to the next one.
 * The rest of DriverContext is left alone, since the framework has the last of them. */
#include "unusual.h"

typedef struct _EXTENSION {
    LOCKED_QUEUE Reads;
    PIRP First; /* under the queue's lock, with the links */
} EXTENSION, *PEXTENSION;

DRIVER_INITIALIZE DriverEntry;

static PEXTENSION Of(PIO_CSQ Csq) {
    return CONTAINING_RECORD(Csq, EXTENSION, Reads.Queue);
}

static PIRP NextOf(PIRP Irp) {
    return Irp->Tail.Overlay.DriverContext[0];
}

/* The last IRP before this one; null: it is the first. For null, the last of all. */
static PIRP Before(PEXTENSION Extension, PIRP Irp) {
    PIRP At = Extension->First, Previous = NULL;
    for (; At != Irp; At = NextOf(At)) {
        Previous = At;
    }
    return Previous;
}

static VOID Link(PEXTENSION Extension, PIRP Previous, PIRP Next) {
    if (Previous == NULL) {
        Extension->First = Next;
    } else {
        Previous->Tail.Overlay.DriverContext[0] = Next;
    }
}

static NTSTATUS NTAPI Insert(PIO_CSQ Csq, PIRP Irp, PVOID InsertContext) {
    UNREFERENCED_PARAMETER(InsertContext);
    if (IsClosed(Irp)) {
        return STATUS_FILE_CLOSED;
    }
    Irp->Tail.Overlay.DriverContext[0] = NULL;
    Link(Of(Csq), Before(Of(Csq), NULL), Irp);
    return STATUS_PENDING;
}

static VOID NTAPI Remove(PIO_CSQ Csq, PIRP Irp) {
    Link(Of(Csq), Before(Of(Csq), Irp), NextOf(Irp));
}

static PIRP NTAPI Peek(PIO_CSQ Csq, PIRP Irp, PVOID PeekContext) {
    PIRP At = Irp == NULL ? Of(Csq)->First : NextOf(Irp);
    while (At != NULL && PeekContext != NULL && PeekContext != FileOf(At)) {
        At = NextOf(At);
    }
    return At;
}

NTSTATUS NTAPI DriverEntry(PDRIVER_OBJECT DriverObject, PUNICODE_STRING RegistryPath) {
    UNREFERENCED_PARAMETER(RegistryPath);
    return InitializeLocked(DriverObject, sizeof(EXTENSION), Insert, Remove, Peek);
}
