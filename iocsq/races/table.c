/* Who needs the table first makes it, and publishes it by an interlocked call; all read its address
 * plainly. Wrong: each write puts another table in its place.
 *
 *     50  there is one from the beginning, which a write changes once nobody uses it, as rundown
 *         protection tells
 */
#include "device.h"

#define POOL_TAG 'lbaT'

typedef struct _TABLE {
    ULONG First, Last;
} TABLE, *PTABLE;

typedef struct _EXTENSION {
    WAITING Reads;
    PTABLE Table;
    EX_RUNDOWN_REF Users;  /* of what the table says */
    FAST_MUTEX ChangeLock; /* of those that change that */
} EXTENSION, *PEXTENSION;

DRIVER_INITIALIZE DriverEntry;
static DRIVER_DISPATCH Read, Write;
static DRIVER_UNLOAD Unload;

static PTABLE MakeTable(VOID) {
    PTABLE Table = ExAllocatePoolWithTag(NonPagedPool, sizeof(TABLE), POOL_TAG);
    if (Table != NULL) {
        RtlZeroMemory(Table, sizeof(TABLE));
        Table->Last = 1;
    }
    return Table;
}

#if WRONG == 50
static PTABLE GetTable(PEXTENSION Extension) {
    return Extension->Table;
}
#else
static PTABLE GetTable(PEXTENSION Extension) {
    PTABLE Table = Extension->Table, Before;
    if (Table != NULL) {
        return Table;
    }
    Table = MakeTable();
    Before = InterlockedCompareExchangePointer((PVOID *)&Extension->Table, Table, NULL);
    if (Before != NULL && Table != NULL) {
        ExFreePoolWithTag(Table, POOL_TAG);
    }
    return Before != NULL ? Before : Table;
}
#endif

/* ---- A change, once nobody uses the table ---- */
static VOID Change(PEXTENSION Extension) {
#if WRONG == 1
    PTABLE Table = MakeTable();
    PTABLE Before = InterlockedExchangePointer((PVOID *)&Extension->Table, Table);
    if (Before != NULL) {
        ExFreePoolWithTag(Before, POOL_TAG);
    }
#elif WRONG == 50
    PTABLE Table = GetTable(Extension);
    ExAcquireFastMutex(&Extension->ChangeLock);
    ExWaitForRundownProtectionRelease(&Extension->Users);
    if (Table != NULL) {
        Table->Last++;
    }
    ExReInitializeRundownProtection(&Extension->Users);
    ExReleaseFastMutex(&Extension->ChangeLock);
#else
    UNREFERENCED_PARAMETER(Extension);
#endif
}

static BOOLEAN Use(PEXTENSION Extension) {
    PTABLE Table = GetTable(Extension);
    BOOLEAN Ready = FALSE;
    if (Table != NULL && ExAcquireRundownProtection(&Extension->Users)) {
        Ready = Table->First != Table->Last;
        ExReleaseRundownProtection(&Extension->Users);
    }
    return Ready;
}

static NTSTATUS NTAPI Read(PDEVICE_OBJECT DeviceObject, PIRP Irp) {
    PEXTENSION Extension = DeviceObject->DeviceExtension;
    if (!Use(Extension)) {
        Finish(Irp, STATUS_DEVICE_NOT_READY, 0);
        return STATUS_DEVICE_NOT_READY;
    }
    return Wait(&Extension->Reads, Irp);
}

static NTSTATUS NTAPI Write(PDEVICE_OBJECT DeviceObject, PIRP Irp) {
    PEXTENSION Extension = DeviceObject->DeviceExtension;
    PIRP Oldest = Use(Extension) ? IoCsqRemoveNextIrp(&Extension->Reads.Queue, NULL) : NULL;
    if (Oldest != NULL) {
        Finish(Oldest, STATUS_SUCCESS, 0);
    }
    Change(Extension);
    Finish(Irp, STATUS_SUCCESS, 0);
    return STATUS_SUCCESS;
}

static VOID NTAPI Unload(PDRIVER_OBJECT DriverObject) {
    PEXTENSION Extension = DriverObject->DeviceObject->DeviceExtension;
    if (Extension->Table != NULL) {
        ExFreePoolWithTag(Extension->Table, POOL_TAG);
    }
    IoDeleteDevice(DriverObject->DeviceObject);
}

NTSTATUS NTAPI DriverEntry(PDRIVER_OBJECT DriverObject, PUNICODE_STRING RegistryPath) {
    PEXTENSION Extension = Begin(DriverObject, sizeof(EXTENSION), Read, Write, Unload);
    UNREFERENCED_PARAMETER(RegistryPath);
    if (Extension == NULL) {
        return STATUS_INSUFFICIENT_RESOURCES;
    }
    ExInitializeRundownProtection(&Extension->Users);
    ExInitializeFastMutex(&Extension->ChangeLock);
#if WRONG == 50
    Extension->Table = MakeTable();
#endif
    return STATUS_SUCCESS;
}
