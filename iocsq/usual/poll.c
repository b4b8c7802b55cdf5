/* A sensor that raises no interrupt: a thread of the driver's own takes a sample for each read. A
 * semaphore counts the reads that came, cancelled or not, and an event ends the thread. */
#include <ntddk.h>
#include <wdmsec.h>
#include <csq.h>

#ifndef WRONG
#define WRONG 0
#endif

#define SAMPLE_BYTES 16

typedef struct _READS {
    IO_CSQ Csq;
    KSPIN_LOCK Guard;
    LIST_ENTRY Irps; /* under Guard */
    KSEMAPHORE Came; /* counts them */
} READS, *PREADS;

typedef struct _SENSOR {
    READS Reads;
    KEVENT Ends;             /* the sampler */
    PETHREAD Sampler;
    LARGE_INTEGER SampledAt; /* the sampler's own */
} SENSOR, *PSENSOR;

static UNICODE_STRING Name = RTL_CONSTANT_STRING(L"\\Device\\Sensor");
static UNICODE_STRING Link = RTL_CONSTANT_STRING(L"\\DosDevices\\Sensor");

DRIVER_INITIALIZE DriverEntry;
static DRIVER_DISPATCH OpenOrClose, Read, Cleanup;
static DRIVER_UNLOAD Unload;
static KSTART_ROUTINE Sample;

static NTSTATUS End(_Inout_ PIRP Irp, NTSTATUS Status, ULONG Bytes) {
    Irp->IoStatus.Information = Bytes;
    Irp->IoStatus.Status = Status;
    IoCompleteRequest(Irp, IO_NO_INCREMENT);
    return Status;
}

/* ---- The queue ---- */
static VOID NTAPI Append(_In_ PIO_CSQ Csq, _In_ PIRP Irp) {
    PREADS Reads = CONTAINING_RECORD(Csq, READS, Csq);
    InsertTailList(&Reads->Irps, &Irp->Tail.Overlay.ListEntry);
}

static VOID NTAPI Unlink(_In_ PIO_CSQ Csq, _In_ PIRP Irp) {
    UNREFERENCED_PARAMETER(Csq);
    RemoveEntryList(&Irp->Tail.Overlay.ListEntry);
}

static BOOLEAN IsOf(_In_opt_ PVOID File, _In_ PIRP Irp) {
    return File == NULL || File == IoGetCurrentIrpStackLocation(Irp)->FileObject;
}

static PIRP NTAPI FirstAfter(_In_ PIO_CSQ Csq, _In_opt_ PIRP Last, _In_opt_ PVOID File) {
    PREADS Reads = CONTAINING_RECORD(Csq, READS, Csq);
    PLIST_ENTRY Entry = Last ? &Last->Tail.Overlay.ListEntry : &Reads->Irps;
    while ((Entry = Entry->Flink) != &Reads->Irps) {
        PIRP Irp = CONTAINING_RECORD(Entry, IRP, Tail.Overlay.ListEntry);
        if (IsOf(File, Irp)) {
#if WRONG == 1
            Irp->Tail.Overlay.DriverContext[3] = NULL; /* which the framework keeps its own in */
#endif
            return Irp;
        }
    }
    return NULL;
}

static VOID NTAPI Enter(_In_ PIO_CSQ Csq, _Out_ PKIRQL Before) {
    KeAcquireSpinLock(&CONTAINING_RECORD(Csq, READS, Csq)->Guard, Before);
}

static VOID NTAPI Leave(_In_ PIO_CSQ Csq, _In_ KIRQL Before) {
    PKSPIN_LOCK Guard = &CONTAINING_RECORD(Csq, READS, Csq)->Guard;
    KeReleaseSpinLock(Guard, WRONG == 2 ? PASSIVE_LEVEL : Before);
}

static VOID NTAPI EndCancelled(_In_ PIO_CSQ Csq, _In_ PIRP Irp) {
    UNREFERENCED_PARAMETER(Csq);
#if WRONG == 3
    PAGED_CODE();
#endif
    End(Irp, STATUS_CANCELLED, 0);
}

static VOID BeginReads(_Out_ PREADS Reads) {
#if WRONG != 10
    KeInitializeSpinLock(&Reads->Guard);
#endif
#if WRONG != 11
    KeInitializeSemaphore(&Reads->Came, 0, MAXLONG);
#endif
    InitializeListHead(&Reads->Irps);
    IoCsqInitialize(&Reads->Csq, Append, Unlink, FirstAfter, Enter, Leave, EndCancelled);
}

/* ---- The sampler ---- */
static VOID SampleFor(_Inout_ PSENSOR Sensor, _Inout_ PIRP Irp) {
    ULONG Bytes = IoGetCurrentIrpStackLocation(Irp)->Parameters.Read.Length;
    LARGE_INTEGER Now;
    KeQuerySystemTime(&Now);
    ASSERT(Now.QuadPart >= Sensor->SampledAt.QuadPart + (WRONG == 4 ? 1 : 0));
    Sensor->SampledAt = Now;
    RtlFillMemory(Irp->AssociatedIrp.SystemBuffer, Bytes, 0xA5);
    End(Irp, STATUS_SUCCESS, Bytes);
}

_Use_decl_annotations_ static VOID NTAPI Sample(PVOID Context) {
    PSENSOR Sensor = Context;
    PVOID Wakers[] = { &Sensor->Ends, &Sensor->Reads.Came };
    KeSetPriorityThread(KeGetCurrentThread(), LOW_REALTIME_PRIORITY);
    while (KeWaitForMultipleObjects(2, Wakers, WaitAny, Executive, KernelMode, FALSE, NULL, NULL) !=
           STATUS_WAIT_0) {
        PIRP Irp = IoCsqRemoveNextIrp(&Sensor->Reads.Csq, NULL);
        if (Irp != NULL) { /* otherwise it was cancelled */
            SampleFor(Sensor, Irp);
        }
    }
    DbgPrintEx(DPFLTR_IHVDRIVER_ID, DPFLTR_TRACE_LEVEL, "the sampler ends\n");
    PsTerminateSystemThread(STATUS_SUCCESS);
}

static NTSTATUS StartSampler(_Inout_ PSENSOR Sensor) {
    HANDLE Handle;
    NTSTATUS Status =
        PsCreateSystemThread(&Handle, (ACCESS_MASK)0, NULL, (HANDLE)0, NULL, Sample, Sensor);
    if (!NT_SUCCESS(Status)) {
        return Status;
    }
    Status = ObReferenceObjectByHandle(Handle, SYNCHRONIZE, *PsThreadType, KernelMode,
                                       (PVOID *)&Sensor->Sampler, NULL);
    NT_ASSERT(NT_SUCCESS(Status));
#if WRONG != 8
    ZwClose(Handle);
#endif
#if WRONG == 9
    ZwClose(Handle);
#endif
    return Status;
}

static VOID StopSampler(_Inout_ PSENSOR Sensor) {
    KeSetEvent(&Sensor->Ends, IO_NO_INCREMENT, FALSE);
    KeWaitForSingleObject(Sensor->Sampler, Executive, KernelMode, FALSE, NULL);
#if WRONG != 5
    ObDereferenceObject(Sensor->Sampler);
#endif
#if WRONG == 6
    ObDereferenceObject(Sensor->Sampler);
#endif
}

/* ---- Dispatch routines ---- */
_Use_decl_annotations_ static NTSTATUS NTAPI OpenOrClose(PDEVICE_OBJECT DeviceObject, PIRP Irp) {
    UNREFERENCED_PARAMETER(DeviceObject);
    PAGED_CODE();
    return End(Irp, STATUS_SUCCESS, 0);
}

_Use_decl_annotations_ static NTSTATUS NTAPI Read(PDEVICE_OBJECT DeviceObject, PIRP Irp) {
    PSENSOR Sensor = DeviceObject->DeviceExtension;
    if (IoGetCurrentIrpStackLocation(Irp)->Parameters.Read.Length > SAMPLE_BYTES) {
        return End(Irp, STATUS_INVALID_PARAMETER, 0);
    }
    IoCsqInsertIrp(&Sensor->Reads.Csq, Irp, NULL);
    KeReleaseSemaphore(&Sensor->Reads.Came, IO_NO_INCREMENT, 1, FALSE);
    return STATUS_PENDING;
}

_Use_decl_annotations_ static NTSTATUS NTAPI Cleanup(PDEVICE_OBJECT DeviceObject, PIRP Irp) {
    PSENSOR Sensor = DeviceObject->DeviceExtension;
    PVOID File = IoGetCurrentIrpStackLocation(Irp)->FileObject;
    PIRP Left;
    while ((Left = IoCsqRemoveNextIrp(&Sensor->Reads.Csq, File)) != NULL) {
        End(Left, STATUS_CANCELLED, 0);
    }
    return End(Irp, STATUS_SUCCESS, 0);
}

/* ---- The driver ---- */
_Use_decl_annotations_ static VOID NTAPI Unload(PDRIVER_OBJECT DriverObject) {
    PSENSOR Sensor = DriverObject->DeviceObject->DeviceExtension;
    PAGED_CODE();
    StopSampler(Sensor);
    ASSERT(IsListEmpty(&Sensor->Reads.Irps));
#if WRONG != 7
    IoDeleteSymbolicLink(&Link);
#endif
    IoDeleteDevice(DriverObject->DeviceObject);
}

static NTSTATUS MakeDevice(_In_ PDRIVER_OBJECT DriverObject, _Out_ PDEVICE_OBJECT *DeviceObject) {
    NTSTATUS Status = IoCreateDeviceSecure(DriverObject, sizeof(SENSOR), &Name, FILE_DEVICE_UNKNOWN,
                                           FILE_DEVICE_SECURE_OPEN, FALSE,
                                           &SDDL_DEVOBJ_SYS_ALL_ADM_ALL, NULL, DeviceObject);
    if (!NT_SUCCESS(Status)) {
        return Status;
    }
    Status = IoCreateSymbolicLink(&Link, &Name);
    if (!NT_SUCCESS(Status)) {
        IoDeleteDevice(*DeviceObject);
    }
    return Status;
}

_Use_decl_annotations_ NTSTATUS NTAPI DriverEntry(PDRIVER_OBJECT DriverObject,
                                                  PUNICODE_STRING RegistryPath) {
    PDEVICE_OBJECT DeviceObject;
    PSENSOR Sensor;
    NTSTATUS Status = MakeDevice(DriverObject, &DeviceObject);
    UNREFERENCED_PARAMETER(RegistryPath);
    KdPrint(("DriverEntry: %08X\n", (unsigned)Status));
    if (!NT_SUCCESS(Status)) {
        return Status;
    }
    DeviceObject->Flags |= WRONG == 12 ? 0 : DO_BUFFERED_IO;
    Sensor = DeviceObject->DeviceExtension;
    BeginReads(&Sensor->Reads);
    KeInitializeEvent(&Sensor->Ends, NotificationEvent, FALSE);
    DriverObject->MajorFunction[IRP_MJ_CREATE] = OpenOrClose;
    DriverObject->MajorFunction[IRP_MJ_CLOSE] = OpenOrClose;
    DriverObject->MajorFunction[IRP_MJ_READ] = Read;
    DriverObject->MajorFunction[IRP_MJ_CLEANUP] = Cleanup;
    DriverObject->DriverUnload = Unload;
    return StartSampler(Sensor);
}
