/* A DPC serves all reads that wait, and a flag says whether it is queued. Wrong in these ways; from
 * 50 on it is right by other means:
 *
 *     1   the flag is taken back after the DPC has looked at the queue for the last time
 *     2   the flag is plain, and taken back before
 *     3   the flag is plain, and taken back after
 *     4   a write reads the flag plainly, which interlocked calls change
 *     5   who uses the device is counted plainly
 *     50  as 4, of a flag that is volatile
 *     51  who uses the device is counted by interlocked calls
 *     52  a plain flag is written once, as the driver is unloaded
 *     53  a volatile flag says whose a mailbox is, which is right where volatile orders (not with
 *         --iso)
 */
#include "device.h"

#if WRONG == 50
#define FLAG volatile LONG
#else
#define FLAG LONG
#endif

typedef struct _EXTENSION {
    WAITING Reads;
    KDPC Dpc;
    FLAG Queued;
    LONG Users;
    BOOLEAN Stops;
    KSPIN_LOCK Lock; /* of those that take from the mailbox */
    volatile LONG Full;
    LONG Mail;
} EXTENSION, *PEXTENSION;

DRIVER_INITIALIZE DriverEntry;
static DRIVER_DISPATCH Read, Write;
static DRIVER_UNLOAD Unload;
static KDEFERRED_ROUTINE Serve;

/* ---- The flag ---- */
static VOID QueueServer(PEXTENSION Extension) {
#if WRONG == 2 || WRONG == 3
    if (!Extension->Queued) {
        Extension->Queued = TRUE;
        KeInsertQueueDpc(&Extension->Dpc, NULL, NULL);
    }
#else
    if (InterlockedExchange(&Extension->Queued, TRUE) == FALSE) {
        KeInsertQueueDpc(&Extension->Dpc, NULL, NULL);
    }
#endif
}

static VOID TakeBack(PEXTENSION Extension) {
#if WRONG == 2 || WRONG == 3
    Extension->Queued = FALSE;
#else
    InterlockedExchange(&Extension->Queued, FALSE);
#endif
}

static BOOLEAN IsQueued(PEXTENSION Extension) {
#if WRONG == 4 || WRONG == 50
    return Extension->Queued != FALSE;
#else
    return InterlockedCompareExchange(&Extension->Queued, FALSE, FALSE) != FALSE;
#endif
}

/* ---- Its users ---- */
static VOID Use(PEXTENSION Extension, LONG By) {
#if WRONG == 5
    Extension->Users += By;
#elif WRONG == 51
    InterlockedExchangeAdd(&Extension->Users, By);
#else
    UNREFERENCED_PARAMETER(Extension);
    UNREFERENCED_PARAMETER(By);
#endif
}

/* ---- The mailbox ---- */
static VOID PutMail(PEXTENSION Extension) {
#if WRONG == 53
    if (!Extension->Full) {
        Extension->Mail++;
        Extension->Mail++;
        Extension->Full = TRUE;
    }
#else
    UNREFERENCED_PARAMETER(Extension);
#endif
}

static BOOLEAN TakeMail(PEXTENSION Extension) {
    BOOLEAN Taken = FALSE;
#if WRONG == 53
    KIRQL Irql;
    KeAcquireSpinLock(&Extension->Lock, &Irql);
    if (Extension->Full) {
        Taken = Extension->Mail != 0;
        Extension->Full = FALSE;
    }
    KeReleaseSpinLock(&Extension->Lock, Irql);
#else
    UNREFERENCED_PARAMETER(Extension);
#endif
    return Taken;
}

static VOID NTAPI Serve(PKDPC Dpc, PVOID Context, PVOID First, PVOID Second) {
    PEXTENSION Extension = Context;
    PIRP Irp;
    UNREFERENCED_PARAMETER(Dpc);
    UNREFERENCED_PARAMETER(First);
    UNREFERENCED_PARAMETER(Second);
#if WRONG != 1 && WRONG != 3
    TakeBack(Extension);
#endif
    while ((Irp = IoCsqRemoveNextIrp(&Extension->Reads.Queue, NULL)) != NULL) {
        Finish(Irp, Extension->Stops ? STATUS_CANCELLED : STATUS_SUCCESS, 0);
    }
#if WRONG == 1 || WRONG == 3
    TakeBack(Extension); /* what came since is forgotten */
#endif
    PutMail(Extension);
}

static NTSTATUS NTAPI Read(PDEVICE_OBJECT DeviceObject, PIRP Irp) {
    PEXTENSION Extension = DeviceObject->DeviceExtension;
    NTSTATUS Status;
    Use(Extension, 1);
    Status = Wait(&Extension->Reads, Irp);
    QueueServer(Extension);
    Use(Extension, -1);
    return Status;
}

static NTSTATUS NTAPI Write(PDEVICE_OBJECT DeviceObject, PIRP Irp) {
    PEXTENSION Extension = DeviceObject->DeviceExtension;
    Finish(Irp, STATUS_SUCCESS, IsQueued(Extension) || TakeMail(Extension) ? 1 : 0);
    return STATUS_SUCCESS;
}

static VOID NTAPI Unload(PDRIVER_OBJECT DriverObject) {
#if WRONG == 52
    PEXTENSION Extension = DriverObject->DeviceObject->DeviceExtension;
    Extension->Stops = TRUE;
#endif
    KeFlushQueuedDpcs();
    IoDeleteDevice(DriverObject->DeviceObject);
}

NTSTATUS NTAPI DriverEntry(PDRIVER_OBJECT DriverObject, PUNICODE_STRING RegistryPath) {
    PEXTENSION Extension = Begin(DriverObject, sizeof(EXTENSION), Read, Write, Unload);
    UNREFERENCED_PARAMETER(RegistryPath);
    if (Extension == NULL) {
        return STATUS_INSUFFICIENT_RESOURCES;
    }
    KeInitializeSpinLock(&Extension->Lock);
    KeInitializeDpc(&Extension->Dpc, Serve, Extension);
    return STATUS_SUCCESS;
}
