/* Each write makes a context that it and a work item use, and the last of them frees. Wrong: the
 * work item lets go of the context, and reads it after that. */
#include "device.h"

#define POOL_TAG 'txtC'

typedef struct _EXTENSION {
    WAITING Reads;
    EX_RUNDOWN_REF Works; /* contexts: Unload waits for them */
} EXTENSION, *PEXTENSION;

typedef struct _CONTEXT {
    PEXTENSION Extension;
    PIO_WORKITEM Item;
    ULONG Length;
    LONG References;
} CONTEXT, *PCONTEXT;

DRIVER_INITIALIZE DriverEntry;
static DRIVER_DISPATCH Read, Write;
static DRIVER_UNLOAD Unload;
static IO_WORKITEM_ROUTINE Work;

static VOID Release(PCONTEXT Context) {
    if (InterlockedDecrement(&Context->References) == 0) {
        PEXTENSION Extension = Context->Extension;
        IoFreeWorkItem(Context->Item);
        ExFreePoolWithTag(Context, POOL_TAG);
        ExReleaseRundownProtection(&Extension->Works);
    }
}

static VOID NTAPI Work(PDEVICE_OBJECT DeviceObject, PVOID Parameter) {
    PEXTENSION Extension = DeviceObject->DeviceExtension;
    PCONTEXT Context = Parameter;
    PIRP Irp = IoCsqRemoveNextIrp(&Extension->Reads.Queue, NULL);
#if WRONG == 1
    Release(Context);
#endif
    if (Irp != NULL) {
        Finish(Irp, STATUS_SUCCESS, Context->Length != 0);
    }
#if WRONG != 1
    Release(Context);
#endif
}

static NTSTATUS StartWork(PDEVICE_OBJECT DeviceObject, ULONG Length) {
    PEXTENSION Extension = DeviceObject->DeviceExtension;
    PCONTEXT Context = ExAllocatePoolWithTag(NonPagedPool, sizeof(CONTEXT), POOL_TAG);
    if (Context == NULL) {
        return STATUS_INSUFFICIENT_RESOURCES;
    }
    Context->Item = IoAllocateWorkItem(DeviceObject);
    if (Context->Item == NULL) {
        ExFreePoolWithTag(Context, POOL_TAG);
        return STATUS_INSUFFICIENT_RESOURCES;
    }
    Context->Extension = Extension;
    Context->Length = Length;
    Context->References = 2;
    ExAcquireRundownProtection(&Extension->Works);
    IoQueueWorkItem(Context->Item, Work, DelayedWorkQueue, Context);
    Release(Context);
    return STATUS_SUCCESS;
}

static NTSTATUS NTAPI Read(PDEVICE_OBJECT DeviceObject, PIRP Irp) {
    PEXTENSION Extension = DeviceObject->DeviceExtension;
    return Wait(&Extension->Reads, Irp);
}

static NTSTATUS NTAPI Write(PDEVICE_OBJECT DeviceObject, PIRP Irp) {
    ULONG Length = IoGetCurrentIrpStackLocation(Irp)->Parameters.Write.Length;
    NTSTATUS Status = StartWork(DeviceObject, Length);
    Finish(Irp, Status, 0);
    return Status;
}

static VOID NTAPI Unload(PDRIVER_OBJECT DriverObject) {
    PEXTENSION Extension = DriverObject->DeviceObject->DeviceExtension;
    ExWaitForRundownProtectionRelease(&Extension->Works);
    IoDeleteDevice(DriverObject->DeviceObject);
}

NTSTATUS NTAPI DriverEntry(PDRIVER_OBJECT DriverObject, PUNICODE_STRING RegistryPath) {
    PEXTENSION Extension = Begin(DriverObject, sizeof(EXTENSION), Read, Write, Unload);
    UNREFERENCED_PARAMETER(RegistryPath);
    if (Extension == NULL) {
        return STATUS_INSUFFICIENT_RESOURCES;
    }
    ExInitializeRundownProtection(&Extension->Works);
    return STATUS_SUCCESS;
}
