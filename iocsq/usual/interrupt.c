/* A device with interrupts: its service routine notes what happened and asks for a DPC, which ends
 * as many requests as the device has done. A timer stands for the device. */
#include <ntddk.h>
#include <csq.h>

#ifndef WRONG
#define WRONG 0
#endif

#define STATUS_BIT_DONE 0x01
#define STATUS_BIT_FULL 0x02
#define MOST_WAITING 64

typedef struct _DEVICE {
    IO_CSQ Requests;
    LIST_ENTRY List; /* under Lock, with Length */
    KSPIN_LOCK Lock;
    KSPIN_LOCK Statistics;
    ULONG Length;
    volatile LONG Register; /* of the device: what it has done */
    volatile LONG Interrupts;
    LONG64 Served;
    KTIMER Hardware;
    KDPC HardwareDpc;
} DEVICE, *PDEVICE;

DRIVER_INITIALIZE DriverEntry;
static IO_DPC_ROUTINE DpcForIsr;
static KDEFERRED_ROUTINE HardwareTick;

static NTSTATUS Done(PIRP Irp, NTSTATUS Status) {
    Irp->IoStatus.Status = Status;
    Irp->IoStatus.Information = 0;
    IoCompleteRequest(Irp, IO_NO_INCREMENT);
    return Status;
}

#define DEVICE_OF(Csq) CONTAINING_RECORD((Csq), DEVICE, Requests)

static NTSTATUS NTAPI InsertRequest(PIO_CSQ Csq, PIRP Irp, PVOID InsertContext) {
    PDEVICE Device = DEVICE_OF(Csq);
    UNREFERENCED_PARAMETER(InsertContext);
    if (IoGetCurrentIrpStackLocation(Irp)->FileObject->FsContext != NULL) {
        return STATUS_FILE_CLOSED;
    }
    if (Device->Length >= MOST_WAITING) {
        return STATUS_DEVICE_BUSY; /* a warning, so no success: it isn't queued */
    }
    Device->Length++;
    InsertTailList(&Device->List, &Irp->Tail.Overlay.ListEntry);
    return STATUS_SUCCESS;
}

static VOID NTAPI RemoveRequest(PIO_CSQ Csq, PIRP Irp) {
    DEVICE_OF(Csq)->Length--;
    RemoveEntryList(&Irp->Tail.Overlay.ListEntry);
}

static PIRP NTAPI PeekRequest(PIO_CSQ Csq, PIRP Irp, PVOID PeekContext) {
    PLIST_ENTRY Head = &DEVICE_OF(Csq)->List,
                Entry = Irp ? Irp->Tail.Overlay.ListEntry.Flink : Head->Flink;
    for (; Entry != Head; Entry = Entry->Flink) {
        PIRP Next = CONTAINING_RECORD(Entry, IRP, Tail.Overlay.ListEntry);
        if (PeekContext == NULL ||
            PeekContext == (PVOID)IoGetCurrentIrpStackLocation(Next)->FileObject) {
            return Next;
        }
    }
    return NULL;
}

static VOID NTAPI LockRequests(PIO_CSQ Csq, PKIRQL Irql) {
    KeAcquireSpinLock(&DEVICE_OF(Csq)->Lock, Irql);
#if WRONG == 1
    {
        KIRQL Inner;
        KeAcquireSpinLock(&DEVICE_OF(Csq)->Statistics, &Inner);
        DEVICE_OF(Csq)->Served++;
        KeReleaseSpinLock(&DEVICE_OF(Csq)->Statistics, *Irql); /* the other lock's */
    }
#endif
}

static VOID NTAPI UnlockRequests(PIO_CSQ Csq, KIRQL Irql) {
    KeReleaseSpinLock(&DEVICE_OF(Csq)->Lock, Irql);
}

static VOID NTAPI CanceledRequest(PIO_CSQ Csq, PIRP Irp) {
    UNREFERENCED_PARAMETER(Csq);
    Done(Irp, STATUS_CANCELLED);
}

/* ---- The device, and its interrupts ---- */
static BOOLEAN InterruptService(PDEVICE_OBJECT DeviceObject) {
    PDEVICE Device = DeviceObject->DeviceExtension;
    if ((InterlockedOr(&Device->Register, 0) & STATUS_BIT_DONE) == 0) {
        return FALSE; /* another device's */
    }
    InterlockedAnd(&Device->Register, ~STATUS_BIT_DONE);
    InterlockedIncrement(&Device->Interrupts);
    IoRequestDpc(DeviceObject, NULL, Device);
    return TRUE;
}

static VOID NTAPI HardwareTick(PKDPC Dpc, PVOID DeferredContext, PVOID SystemArgument1,
                               PVOID SystemArgument2) {
    PDEVICE_OBJECT DeviceObject = DeferredContext;
    UNREFERENCED_PARAMETER(Dpc);
    UNREFERENCED_PARAMETER(SystemArgument1);
    UNREFERENCED_PARAMETER(SystemArgument2);
    InterlockedOr(&((PDEVICE)DeviceObject->DeviceExtension)->Register, STATUS_BIT_DONE);
    InterruptService(DeviceObject);
}

static VOID NTAPI DpcForIsr(PKDPC Dpc, PDEVICE_OBJECT DeviceObject, PIRP Irp, PVOID Context) {
    PDEVICE Device = Context;
    LONG Count = InterlockedExchange(&Device->Interrupts, 0);
    UNREFERENCED_PARAMETER(Dpc);
    UNREFERENCED_PARAMETER(DeviceObject);
    while (Count-- > 0 && (Irp = IoCsqRemoveNextIrp(&Device->Requests, NULL)) != NULL) {
        Done(Irp, STATUS_SUCCESS);
        if (KeTryToAcquireSpinLockAtDpcLevel(&Device->Statistics)) { /* it isn't worth a wait */
            Device->Served++;
            KeReleaseSpinLockFromDpcLevel(&Device->Statistics);
        }
    }
}

/* ---- Dispatch routines ---- */
static NTSTATUS NTAPI Open(PDEVICE_OBJECT DeviceObject, PIRP Irp) {
    UNREFERENCED_PARAMETER(DeviceObject);
    return Done(Irp, STATUS_SUCCESS);
}

static NTSTATUS NTAPI Transfer(PDEVICE_OBJECT DeviceObject, PIRP Irp) {
    PDEVICE Device = DeviceObject->DeviceExtension;
    NTSTATUS Status = IoCsqInsertIrpEx(&Device->Requests, Irp, NULL, NULL);
    return NT_SUCCESS(Status) ? STATUS_PENDING : Done(Irp, Status);
}

static NTSTATUS NTAPI Cleanup(PDEVICE_OBJECT DeviceObject, PIRP Irp) {
    PDEVICE Device = DeviceObject->DeviceExtension;
    PFILE_OBJECT FileObject = IoGetCurrentIrpStackLocation(Irp)->FileObject;
    PIRP Request;
    KIRQL Irql;
    KeAcquireSpinLock(&Device->Lock, &Irql);
    FileObject->FsContext = Device;
    KeReleaseSpinLock(&Device->Lock, Irql);
    while ((Request = IoCsqRemoveNextIrp(&Device->Requests, FileObject)) != NULL) {
        Done(Request, STATUS_CANCELLED);
    }
    return Done(Irp, STATUS_SUCCESS);
}

static VOID NTAPI Unload(PDRIVER_OBJECT DriverObject) {
    PDEVICE Device = DriverObject->DeviceObject->DeviceExtension;
    KeCancelTimer(&Device->Hardware);
    KeFlushQueuedDpcs();
    IoDeleteDevice(DriverObject->DeviceObject);
}

NTSTATUS NTAPI DriverEntry(PDRIVER_OBJECT DriverObject, PUNICODE_STRING RegistryPath) {
    PDEVICE_OBJECT DeviceObject;
    PDEVICE Device;
    LARGE_INTEGER First;
    NTSTATUS Status = IoCreateDevice(DriverObject, sizeof(DEVICE), NULL, FILE_DEVICE_UNKNOWN, 0,
                                     FALSE, &DeviceObject);
    UNREFERENCED_PARAMETER(RegistryPath);
    if (!NT_SUCCESS(Status)) {
        return Status;
    }
    Device = DeviceObject->DeviceExtension;
    InitializeListHead(&Device->List);
    KeInitializeSpinLock(&Device->Lock);
    KeInitializeSpinLock(&Device->Statistics);
    IoCsqInitializeEx(&Device->Requests, InsertRequest, RemoveRequest, PeekRequest, LockRequests,
                      UnlockRequests, CanceledRequest);
    if (WRONG != 2) {
        IoInitializeDpcRequest(DeviceObject, DpcForIsr);
    }
    KeInitializeDpc(&Device->HardwareDpc, HardwareTick, DeviceObject);
    KeSetImportanceDpc(&Device->HardwareDpc, HighImportance);
    KeInitializeTimer(&Device->Hardware);
    First.QuadPart = -20000;
    KeSetTimerEx(&Device->Hardware, First, 1, &Device->HardwareDpc);
    DeviceObject->Flags |= DO_DIRECT_IO;
    DriverObject->DriverUnload = Unload;
    DriverObject->MajorFunction[IRP_MJ_CREATE] = DriverObject->MajorFunction[IRP_MJ_CLOSE] = Open;
    DriverObject->MajorFunction[IRP_MJ_READ] = DriverObject->MajorFunction[IRP_MJ_WRITE] = Transfer;
    DriverObject->MajorFunction[IRP_MJ_CLEANUP] = Cleanup;
    return STATUS_SUCCESS;
}
