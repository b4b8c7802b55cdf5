/* Requests that the I/O manager builds for a lower device: a write asks it, waits for a while, and
 * cancels what it asked otherwise; then it ends the oldest read. A device control flushes the lower
 * device, and has it answer what it was asked. */
#include "waiting.h"

#define IOCTL_ASK CTL_CODE(FILE_DEVICE_UNKNOWN, 0x900, METHOD_BUFFERED, FILE_ANY_ACCESS)
#define LIMIT (-20000) /* 2 milliseconds */

typedef struct _EXTENSION {
    WAITING Irps; /* of the upper device the reads, of the lower one what it was asked */
    PDEVICE_OBJECT Lower;
} EXTENSION, *PEXTENSION;

/* ---- A question, with a limit of time ---- */
/* The driver keeps the request until it lets it go on: it can be cancelled without being gone. */
static inline NTSTATUS NTAPI Keep(PDEVICE_OBJECT DeviceObject, PIRP Irp, PVOID Context) {
    UNREFERENCED_PARAMETER(DeviceObject);
#if WRONG == 2
    IoFreeIrp(Irp);
#else
    UNREFERENCED_PARAMETER(Irp);
#endif
    KeSetEvent(Context, IO_NO_INCREMENT, FALSE);
    return STATUS_MORE_PROCESSING_REQUIRED;
}

static VOID Await(PIRP Irp, PKEVENT Completed) {
    LARGE_INTEGER Limit;
    Limit.QuadPart = LIMIT;
    if (KeWaitForSingleObject(Completed, Executive, KernelMode, FALSE, &Limit) == STATUS_TIMEOUT) {
        IoCancelIrp(Irp);
        KeWaitForSingleObject(Completed, Executive, KernelMode, FALSE, NULL);
    }
}

static NTSTATUS Ask(PDEVICE_OBJECT Lower, PULONG Answer) {
    KEVENT Completed, Ended;
    IO_STATUS_BLOCK Result;
    PIRP Irp;
    KeInitializeEvent(&Completed, NotificationEvent, FALSE);
    KeInitializeEvent(&Ended, NotificationEvent, FALSE);
    Irp = IoBuildDeviceIoControlRequest(IOCTL_ASK, Lower, NULL, 0, Answer, sizeof(*Answer), TRUE,
                                        &Ended, &Result);
    if (Irp == NULL) {
        return STATUS_INSUFFICIENT_RESOURCES;
    }
#if WRONG == 1
    if (IoCallDriver(Lower, Irp) == STATUS_PENDING) {
        Await(Irp, &Ended); /* once that is set the request is gone */
    }
#else
    IoSetCompletionRoutine(Irp, Keep, &Completed, TRUE, TRUE, TRUE);
    if (IoCallDriver(Lower, Irp) == STATUS_PENDING) {
        Await(Irp, &Completed);
    }
#if WRONG != 3
    IoCompleteRequest(Irp, IO_NO_INCREMENT); /* which the I/O manager ends */
#endif
#endif
    return Result.Status;
}

/* ---- A flush that nobody waits for ---- */
static NTSTATUS NTAPI Forget(PDEVICE_OBJECT DeviceObject, PIRP Irp, PVOID Context) {
    UNREFERENCED_PARAMETER(DeviceObject);
    UNREFERENCED_PARAMETER(Context);
#if WRONG == 4
    UNREFERENCED_PARAMETER(Irp);
    return STATUS_SUCCESS;
#else
    IoFreeIrp(Irp);
    return STATUS_MORE_PROCESSING_REQUIRED;
#endif
}

static VOID FlushLower(PDEVICE_OBJECT Lower) {
    PIRP Irp =
        IoBuildAsynchronousFsdRequest(IRP_MJ_FLUSH_BUFFERS, Lower, NULL, 0, NULL, NULL);
    if (Irp != NULL) {
        IoSetCompletionRoutine(Irp, Forget, NULL, TRUE, TRUE, TRUE);
        IoCallDriver(Lower, Irp);
    }
}

/* ---- Requests ---- */
static VOID Reply(PEXTENSION Lower) {
    PIRP Irp;
    while ((Irp = IoCsqRemoveNextIrp(&Lower->Irps.Queue, NULL)) != NULL) {
        *(PULONG)Irp->AssociatedIrp.SystemBuffer = 1;
        Finish(Irp, STATUS_SUCCESS, sizeof(ULONG));
    }
}

static NTSTATUS NTAPI Read(PDEVICE_OBJECT DeviceObject, PIRP Irp) {
    return Wait(&((PEXTENSION)DeviceObject->DeviceExtension)->Irps, Irp);
}

static NTSTATUS NTAPI Write(PDEVICE_OBJECT DeviceObject, PIRP Irp) {
    PEXTENSION Extension = DeviceObject->DeviceExtension;
    ULONG Answer = 0;
    NTSTATUS Status = Ask(Extension->Lower, &Answer);
    PIRP Oldest = IoCsqRemoveNextIrp(&Extension->Irps.Queue, NULL);
    if (Oldest != NULL) {
        Finish(Oldest, NT_SUCCESS(Status) && Answer == 1 ? STATUS_SUCCESS : STATUS_TIMEOUT, 0);
    }
    return Succeed(DeviceObject, Irp);
}

static NTSTATUS NTAPI Control(PDEVICE_OBJECT DeviceObject, PIRP Irp) {
    PEXTENSION Extension = DeviceObject->DeviceExtension;
    FlushLower(Extension->Lower);
    Reply(Extension->Lower->DeviceExtension);
    return Succeed(DeviceObject, Irp);
}

static NTSTATUS NTAPI Cleanup(PDEVICE_OBJECT DeviceObject, PIRP Irp) {
    CleanUp(&((PEXTENSION)DeviceObject->DeviceExtension)->Irps, FileOf(Irp));
    return Succeed(DeviceObject, Irp);
}

static VOID NTAPI Unload(PDRIVER_OBJECT DriverObject) {
    PEXTENSION Extension = DriverObject->DeviceObject->DeviceExtension;
    PDEVICE_OBJECT Lower = Extension->Lower;
    IoDeleteDevice(DriverObject->DeviceObject);
    IoDeleteDevice(Lower);
}

DRIVER_INITIALIZE DriverEntry;
NTSTATUS NTAPI DriverEntry(PDRIVER_OBJECT DriverObject, PUNICODE_STRING RegistryPath) {
    PDEVICE_OBJECT Lower, Upper;
    NTSTATUS Status = MakeDevice(DriverObject, sizeof(EXTENSION), &Lower);
    UNREFERENCED_PARAMETER(RegistryPath);
    if (!NT_SUCCESS(Status)) {
        return Status;
    }
    Status = MakeDevice(DriverObject, sizeof(EXTENSION), &Upper);
    if (!NT_SUCCESS(Status)) {
        IoDeleteDevice(Lower);
        return Status;
    }
    InitializeWaiting(&((PEXTENSION)Lower->DeviceExtension)->Irps, CompleteWaiting);
    InitializeWaiting(&((PEXTENSION)Upper->DeviceExtension)->Irps, CompleteWaiting);
    ((PEXTENSION)Upper->DeviceExtension)->Lower = Lower;
    DriverObject->DriverUnload = Unload;
    DriverObject->MajorFunction[IRP_MJ_READ] = Read;
    DriverObject->MajorFunction[IRP_MJ_WRITE] = Write;
    DriverObject->MajorFunction[IRP_MJ_DEVICE_CONTROL] = Control;
    DriverObject->MajorFunction[IRP_MJ_INTERNAL_DEVICE_CONTROL] = Read; /* of the lower device */
    DriverObject->MajorFunction[IRP_MJ_FLUSH_BUFFERS] = Succeed;
    DriverObject->MajorFunction[IRP_MJ_CLEANUP] = Cleanup;
    return STATUS_SUCCESS;
}
