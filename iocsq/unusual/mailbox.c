/* A mailbox that is seldom empty: a read takes a letter at once. One that finds none waits for the
 * post, which comes a millisecond later with a sack of letters. */
#include "unusual.h"

#define SACK 100

typedef struct _EXTENSION {
    WAITING Reads;
    ULONG Letters; /* under the lock of Reads; if there are none, Post is set, or Delivery comes */
    KTIMER Post;
    KDPC Delivery;
} EXTENSION, *PEXTENSION;

DRIVER_INITIALIZE DriverEntry;
static DRIVER_DISPATCH Read, Cleanup;
static KDEFERRED_ROUTINE Deliver;

/* Whether there was one. The lock is held. */
static BOOLEAN TakeLetter(PEXTENSION Extension) {
    LARGE_INTEGER Soon;
    if (Extension->Letters == 0) {
        return FALSE;
    }
    Extension->Letters--;
    if (Extension->Letters == 0) {
        Soon.QuadPart = -10000; /* a millisecond */
        KeSetTimer(&Extension->Post, Soon, &Extension->Delivery);
    }
    return TRUE;
}

/* Says in *InsertContext whether the read got a letter; then it isn't queued. */
static NTSTATUS NTAPI InsertRead(PIO_CSQ Csq, PIRP Irp, PVOID InsertContext) {
    PEXTENSION Extension = CONTAINING_RECORD(Csq, EXTENSION, Reads.Queue);
    PBOOLEAN Got = InsertContext;
    if (IsClosed(Irp)) {
        return STATUS_FILE_CLOSED;
    }
    *Got = TakeLetter(Extension);
    if (*Got) {
        return STATUS_UNSUCCESSFUL;
    }
    InsertTailList(&Extension->Reads.Irps, &Irp->Tail.Overlay.ListEntry);
    return STATUS_PENDING;
}

static NTSTATUS NTAPI Read(PDEVICE_OBJECT DeviceObject, PIRP Irp) {
    PEXTENSION Extension = DeviceObject->DeviceExtension;
    BOOLEAN Got = FALSE;
    NTSTATUS Status = IoCsqInsertIrpEx(&Extension->Reads.Queue, Irp, NULL, &Got);
    if (NT_SUCCESS(Status)) {
        return STATUS_PENDING;
    }
    return Complete(Irp, Got ? STATUS_SUCCESS : Status);
}

/* The letters come first: a read that finds none meanwhile waits for the next post. */
static VOID NTAPI Deliver(PKDPC Dpc, PVOID Context, PVOID First, PVOID Second) {
    PEXTENSION Extension = Context;
    PIRP Irp;
    UNREFERENCED_PARAMETER(Dpc);
    UNREFERENCED_PARAMETER(First);
    UNREFERENCED_PARAMETER(Second);
    KeAcquireSpinLockAtDpcLevel(&Extension->Reads.Lock);
    Extension->Letters = SACK;
    KeReleaseSpinLockFromDpcLevel(&Extension->Reads.Lock);
    while ((Irp = IoCsqRemoveNextIrp(&Extension->Reads.Queue, NULL)) != NULL) {
        Complete(Irp, STATUS_SUCCESS);
    }
}

static NTSTATUS NTAPI Cleanup(PDEVICE_OBJECT DeviceObject, PIRP Irp) {
    CleanUp(&((PEXTENSION)DeviceObject->DeviceExtension)->Reads, FileOf(Irp));
    return Complete(Irp, STATUS_SUCCESS);
}

static VOID NTAPI Unload(PDRIVER_OBJECT DriverObject) {
    PEXTENSION Extension = DriverObject->DeviceObject->DeviceExtension;
    KeCancelTimer(&Extension->Post);
    UnloadDevice(DriverObject);
}

NTSTATUS NTAPI DriverEntry(PDRIVER_OBJECT DriverObject, PUNICODE_STRING RegistryPath) {
    PEXTENSION Extension = Begin(DriverObject, sizeof(EXTENSION), Read, Succeed, Cleanup);
    UNREFERENCED_PARAMETER(RegistryPath);
    if (Extension == NULL) {
        return STATUS_INSUFFICIENT_RESOURCES;
    }
    InitializeOwn(&Extension->Reads, InsertRead, PeekWaiting, CompleteWaiting);
    KeInitializeTimer(&Extension->Post);
    KeInitializeDpc(&Extension->Delivery, Deliver, Extension);
    Extension->Letters = SACK;
    DriverObject->DriverUnload = Unload;
    return STATUS_SUCCESS;
}
