/* Each write leaves blocks of the pool to a DPC, which frees them; they are as large as a request's
 * system buffer, which may lie where one was. A barrier stands where two words have an order. */
#include "device.h"

#define POOL_TAG 'kolB'
enum { BLOCKS = 12 };

typedef struct _BLOCK {
    SINGLE_LIST_ENTRY Link;
    ULONG Values[3];
} BLOCK, *PBLOCK;

typedef struct _EXTENSION {
    WAITING Reads;
    SINGLE_LIST_ENTRY Blocks; /* under BlockLock */
    KSPIN_LOCK BlockLock;
    KDPC Dpc;
    volatile LONG Sum;
    volatile ULONG Made, Freed; /* Freed isn't above Made */
} EXTENSION, *PEXTENSION;

DRIVER_INITIALIZE DriverEntry;
static DRIVER_DISPATCH Read, Write;
static DRIVER_UNLOAD Unload;
static KDEFERRED_ROUTINE FreeBlocks;

static VOID NTAPI FreeBlocks(PKDPC Dpc, PVOID Context, PVOID First, PVOID Second) {
    PEXTENSION Extension = Context;
    PSINGLE_LIST_ENTRY Entry;
    BLOCK Copy; /* on this stack, as that of the DPC before */
    UNREFERENCED_PARAMETER(Dpc);
    UNREFERENCED_PARAMETER(First);
    UNREFERENCED_PARAMETER(Second);
    RtlZeroMemory(&Copy, sizeof(Copy));
    while ((Entry = ExInterlockedPopEntryList(&Extension->Blocks, &Extension->BlockLock)) != NULL) {
        RtlCopyMemory(&Copy, CONTAINING_RECORD(Entry, BLOCK, Link), sizeof(BLOCK));
        ExFreePoolWithTag(CONTAINING_RECORD(Entry, BLOCK, Link), POOL_TAG);
        Extension->Sum += (LONG)Copy.Values[2];
    }
    Extension->Freed = Extension->Made;
}

static VOID MakeBlocks(PEXTENSION Extension) {
    for (ULONG Made = 0; Made < BLOCKS; Made++) {
        PBLOCK Block = ExAllocatePoolWithTag(NonPagedPool, sizeof(BLOCK), POOL_TAG);
        if (Block != NULL) {
            Block->Values[0] = Block->Values[2] = Made;
            ExInterlockedPushEntryList(&Extension->Blocks, &Block->Link, &Extension->BlockLock);
        }
    }
    Extension->Made = BLOCKS;
    KeMemoryBarrier();
    if (Extension->Freed <= BLOCKS) {
        KeInsertQueueDpc(&Extension->Dpc, NULL, NULL);
    }
}

static VOID Fill(PIRP Irp) {
    PUCHAR Bytes = Irp->AssociatedIrp.SystemBuffer;
    ULONG Length = IoGetCurrentIrpStackLocation(Irp)->Parameters.Read.Length;
    for (ULONG At = 0; At < Length; At++) {
        Bytes[At] = (UCHAR)At;
    }
    Finish(Irp, STATUS_SUCCESS, Length);
}

static NTSTATUS NTAPI Read(PDEVICE_OBJECT DeviceObject, PIRP Irp) {
    PEXTENSION Extension = DeviceObject->DeviceExtension;
    if (Irp->AssociatedIrp.SystemBuffer == NULL) {
        Finish(Irp, STATUS_INVALID_PARAMETER, 0);
        return STATUS_INVALID_PARAMETER;
    }
    *(PUCHAR)Irp->AssociatedIrp.SystemBuffer = 0;
    return Wait(&Extension->Reads, Irp);
}

static NTSTATUS NTAPI Write(PDEVICE_OBJECT DeviceObject, PIRP Irp) {
    PEXTENSION Extension = DeviceObject->DeviceExtension;
    PIRP Oldest = IoCsqRemoveNextIrp(&Extension->Reads.Queue, NULL);
    if (Oldest != NULL) {
        Fill(Oldest);
    }
    MakeBlocks(Extension);
    Finish(Irp, STATUS_SUCCESS, 0);
    return STATUS_SUCCESS;
}

static VOID NTAPI Unload(PDRIVER_OBJECT DriverObject) {
    PEXTENSION Extension = DriverObject->DeviceObject->DeviceExtension;
    KeInsertQueueDpc(&Extension->Dpc, NULL, NULL);
    KeFlushQueuedDpcs();
    IoDeleteDevice(DriverObject->DeviceObject);
}

NTSTATUS NTAPI DriverEntry(PDRIVER_OBJECT DriverObject, PUNICODE_STRING RegistryPath) {
    PEXTENSION Extension = Begin(DriverObject, sizeof(EXTENSION), Read, Write, Unload);
    UNREFERENCED_PARAMETER(RegistryPath);
    if (Extension == NULL) {
        return STATUS_INSUFFICIENT_RESOURCES;
    }
    KeInitializeSpinLock(&Extension->BlockLock);
    KeInitializeDpc(&Extension->Dpc, FreeBlocks, Extension);
    return STATUS_SUCCESS;
}
