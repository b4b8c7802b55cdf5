/* A thread of the driver's serves the requests, which wait in a list under a spin lock of the
 * driver's own. It finds the device busy with every other one, and puts that back to the front of
 * the list. */
#include "device.h"

typedef struct _EXTENSION {
    KSPIN_LOCK Lock;
    LIST_ENTRY Waiting; /* under Lock, as FsContext is */
    KSEMAPHORE Count;   /* one for each request that was put into the list */
    PETHREAD Thread;
    BOOLEAN Stops;
    ULONG Turns; /* of the thread */
} EXTENSION, *PEXTENSION;

DRIVER_INITIALIZE DriverEntry;
static DRIVER_UNLOAD Unload;
static DRIVER_DISPATCH ReadWrite, Cleanup;
static DRIVER_CANCEL CancelWaiting;
static KSTART_ROUTINE Serve;
static TAKE Take;

static VOID NTAPI CancelWaiting(PDEVICE_OBJECT DeviceObject, PIRP Irp) {
    PEXTENSION Extension = DeviceObject->DeviceExtension;
    KIRQL Irql;
    IoReleaseCancelSpinLock(Irp->CancelIrql);
    KeAcquireSpinLock(&Extension->Lock, &Irql);
    RemoveEntryList(&Irp->Tail.Overlay.ListEntry);
#if WRONG == 4
    KeReleaseSpinLockFromDpcLevel(&Extension->Lock);
#else
    KeReleaseSpinLock(&Extension->Lock, Irql);
#endif
    Complete(Irp, STATUS_CANCELLED);
}

/* Gives a request that is in the list its cancel routine. Whether it waits; if not a cancel came
 * before, and it is off the list. The lock is held. */
static BOOLEAN MakeCancelable(PIRP Irp, BOOLEAN Again) {
    IoSetCancelRoutine(Irp, CancelWaiting);
    if (WRONG == 3 && Again) {
        return TRUE;
    }
    if (Irp->Cancel && IoSetCancelRoutine(Irp, NULL) != NULL) {
        RemoveEntryList(&Irp->Tail.Overlay.ListEntry);
        return FALSE;
    }
    return TRUE;
}

static BOOLEAN Take(PIRP Irp, PFILE_OBJECT File) {
    PLIST_ENTRY Entry = &Irp->Tail.Overlay.ListEntry;
    UNREFERENCED_PARAMETER(File);
    RemoveEntryList(Entry);
    InitializeListHead(Entry); /* its cancel routine may be about to unlink it from itself */
    return IoSetCancelRoutine(Irp, NULL) != NULL || WRONG == 2;
}

static VOID PutBack(PEXTENSION Extension, PIRP Irp) {
    BOOLEAN Waits = FALSE;
    KIRQL Irql;
    KeAcquireSpinLock(&Extension->Lock, &Irql);
    if (FileOf(Irp)->FsContext == NULL) {
        InsertHeadList(&Extension->Waiting, &Irp->Tail.Overlay.ListEntry);
        Waits = MakeCancelable(Irp, TRUE);
    }
    KeReleaseSpinLock(&Extension->Lock, Irql);
    if (!Waits) {
        Complete(Irp, STATUS_CANCELLED);
    } else if (WRONG != 1) {
        KeReleaseSemaphore(&Extension->Count, IO_NO_INCREMENT, 1, FALSE);
    }
}

static VOID NTAPI Serve(PVOID Context) {
    PEXTENSION Extension = Context;
    for (;;) {
        PIRP Irp;
        KeWaitForSingleObject(&Extension->Count, Executive, KernelMode, FALSE, NULL);
        if (Extension->Stops) {
            break;
        }
        Irp = Dequeue(&Extension->Lock, &Extension->Waiting, NULL, Take);
        if (Irp != NULL && ++Extension->Turns % 2 == 0) {
            PutBack(Extension, Irp);
        } else if (Irp != NULL) {
            Complete(Irp, STATUS_SUCCESS);
        }
    }
    PsTerminateSystemThread(STATUS_SUCCESS);
}

static NTSTATUS NTAPI ReadWrite(PDEVICE_OBJECT DeviceObject, PIRP Irp) {
    PEXTENSION Extension = DeviceObject->DeviceExtension;
    BOOLEAN Waits = FALSE;
    KIRQL Irql;
    IoMarkIrpPending(Irp);
    KeAcquireSpinLock(&Extension->Lock, &Irql);
    if (FileOf(Irp)->FsContext == NULL) {
        InsertTailList(&Extension->Waiting, &Irp->Tail.Overlay.ListEntry);
        Waits = MakeCancelable(Irp, FALSE);
    }
    KeReleaseSpinLock(&Extension->Lock, Irql);
    if (Waits) {
        KeReleaseSemaphore(&Extension->Count, IO_NO_INCREMENT, 1, FALSE);
    } else {
        Complete(Irp, STATUS_CANCELLED);
    }
    return STATUS_PENDING;
}

static NTSTATUS NTAPI Cleanup(PDEVICE_OBJECT DeviceObject, PIRP Irp) {
    PEXTENSION Extension = DeviceObject->DeviceExtension;
    return CleanUp(&Extension->Lock, &Extension->Waiting, Irp, Take);
}

static VOID NTAPI Unload(PDRIVER_OBJECT DriverObject) {
    PEXTENSION Extension = DriverObject->DeviceObject->DeviceExtension;
    Extension->Stops = TRUE;
    KeReleaseSemaphore(&Extension->Count, IO_NO_INCREMENT, 1, FALSE);
    KeWaitForSingleObject(Extension->Thread, Executive, KernelMode, FALSE, NULL);
    ObDereferenceObject(Extension->Thread);
    IoDeleteDevice(DriverObject->DeviceObject);
}

static NTSTATUS StartThread(PEXTENSION Extension) {
    HANDLE Handle;
    NTSTATUS Status =
        PsCreateSystemThread(&Handle, THREAD_ALL_ACCESS, NULL, NULL, NULL, Serve, Extension);
    if (NT_SUCCESS(Status)) {
        ObReferenceObjectByHandle(Handle, THREAD_ALL_ACCESS, *PsThreadType, KernelMode,
                                  (PVOID *)&Extension->Thread, NULL);
        ZwClose(Handle);
    }
    return Status;
}

NTSTATUS NTAPI DriverEntry(PDRIVER_OBJECT DriverObject, PUNICODE_STRING RegistryPath) {
    PEXTENSION Extension = Begin(DriverObject, sizeof(EXTENSION), ReadWrite, ReadWrite, Cleanup,
                                 Unload);
    NTSTATUS Status;
    UNREFERENCED_PARAMETER(RegistryPath);
    if (Extension == NULL) {
        return STATUS_INSUFFICIENT_RESOURCES;
    }
    KeInitializeSpinLock(&Extension->Lock);
    InitializeListHead(&Extension->Waiting);
    KeInitializeSemaphore(&Extension->Count, 0, MAXLONG);
    Status = StartThread(Extension);
    if (!NT_SUCCESS(Status)) {
        IoDeleteDevice(DriverObject->DeviceObject);
    }
    return Status;
}
