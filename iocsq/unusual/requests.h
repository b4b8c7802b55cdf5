/* What the drivers share that keep each read in memory of its own, a REQUEST, in a list.
 * DriverContext[0] of the IRP points to it. */
#ifndef REQUESTS_H
#define REQUESTS_H
#include "unusual.h"

#define POOL_TAG 'tseR'

typedef struct _EXTENSION {
    KSPIN_LOCK Lock;
    LIST_ENTRY Requests; /* under Lock */
} EXTENSION, *PEXTENSION;

typedef struct _REQUEST REQUEST, *PREQUEST; /* of the driver */

DRIVER_INITIALIZE DriverEntry;
static DRIVER_DISPATCH Read, Write, Cleanup;

/* Of the driver: ends the first request that it can, of this file object or of any for null, if
 * there is one. */
static BOOLEAN EndOne(PEXTENSION Extension, PFILE_OBJECT File, NTSTATUS Status);

/* Whether the request waits. The lock is held. */
typedef BOOLEAN QUEUE(PEXTENSION Extension, PREQUEST Request);

/* The end of a read's dispatch routine: it waits as this request, or is completed. */
static inline NTSTATUS WaitAs(PEXTENSION Extension, PREQUEST Request, PIRP Irp, QUEUE Queue) {
    BOOLEAN Waits;
    KIRQL Irql;
    Irp->Tail.Overlay.DriverContext[0] = Request;
    IoMarkIrpPending(Irp);
    KeAcquireSpinLock(&Extension->Lock, &Irql);
    Waits = Queue(Extension, Request);
    KeReleaseSpinLock(&Extension->Lock, Irql);
    if (!Waits) {
        ExFreePoolWithTag(Request, POOL_TAG);
        Complete(Irp, STATUS_CANCELLED);
    }
    return STATUS_PENDING;
}

static NTSTATUS NTAPI Write(PDEVICE_OBJECT DeviceObject, PIRP Irp) {
    EndOne(DeviceObject->DeviceExtension, NULL, STATUS_SUCCESS);
    return Complete(Irp, STATUS_SUCCESS);
}

static NTSTATUS NTAPI Cleanup(PDEVICE_OBJECT DeviceObject, PIRP Irp) {
    PEXTENSION Extension = DeviceObject->DeviceExtension;
    MarkClosed(&Extension->Lock, FileOf(Irp));
    while (EndOne(Extension, FileOf(Irp), STATUS_CANCELLED)) {
    }
    return Complete(Irp, STATUS_SUCCESS);
}

NTSTATUS NTAPI DriverEntry(PDRIVER_OBJECT DriverObject, PUNICODE_STRING RegistryPath) {
    PEXTENSION Extension = Begin(DriverObject, sizeof(EXTENSION), Read, Write, Cleanup);
    UNREFERENCED_PARAMETER(RegistryPath);
    if (Extension == NULL) {
        return STATUS_INSUFFICIENT_RESOURCES;
    }
    KeInitializeSpinLock(&Extension->Lock);
    InitializeListHead(&Extension->Requests);
    return STATUS_SUCCESS;
}

#endif
