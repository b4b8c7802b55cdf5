/* The queue is an array of slots, the oldest first, and no list. It refuses while it is full. */
#include "unusual.h"

enum { SLOTS = 3 };

typedef struct _EXTENSION {
    LOCKED_QUEUE Reads;
    PIRP Slots[SLOTS]; /* under the queue's lock */
    ULONG Used;
} EXTENSION, *PEXTENSION;

DRIVER_INITIALIZE DriverEntry;

static PEXTENSION Of(PIO_CSQ Csq) {
    return CONTAINING_RECORD(Csq, EXTENSION, Reads.Queue);
}

static NTSTATUS NTAPI Insert(PIO_CSQ Csq, PIRP Irp, PVOID InsertContext) {
    PEXTENSION Extension = Of(Csq);
    UNREFERENCED_PARAMETER(InsertContext);
    if (IsClosed(Irp)) {
        return STATUS_FILE_CLOSED;
    }
    if (Extension->Used == SLOTS) {
        return STATUS_DEVICE_BUSY;
    }
    Extension->Slots[Extension->Used++] = Irp;
    return STATUS_PENDING;
}

/* Where it is; all before it for null. */
static ULONG After(PEXTENSION Extension, PIRP Irp) {
    ULONG At = 0;
    while (Irp != NULL && At < Extension->Used && Extension->Slots[At++] != Irp) {
    }
    return At;
}

static VOID NTAPI Remove(PIO_CSQ Csq, PIRP Irp) {
    PEXTENSION Extension = Of(Csq);
    ULONG At;
    for (At = After(Extension, Irp); At < Extension->Used; At++) {
        Extension->Slots[At - 1] = Extension->Slots[At];
    }
    Extension->Slots[--Extension->Used] = NULL;
}

static PIRP NTAPI Peek(PIO_CSQ Csq, PIRP Irp, PVOID PeekContext) {
    PEXTENSION Extension = Of(Csq);
    ULONG At;
    for (At = After(Extension, Irp); At < Extension->Used; At++) {
        if (PeekContext == NULL || PeekContext == FileOf(Extension->Slots[At])) {
            return Extension->Slots[At];
        }
    }
    return NULL;
}

NTSTATUS NTAPI DriverEntry(PDRIVER_OBJECT DriverObject, PUNICODE_STRING RegistryPath) {
    UNREFERENCED_PARAMETER(RegistryPath);
    return InitializeLocked(DriverObject, sizeof(EXTENSION), Insert, Remove, Peek);
}
