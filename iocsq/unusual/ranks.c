/* An insert context says the request's rank, which the insert keeps in DriverContext[1]: the lowest
 * first, and those of one rank as they came. */
#include "unusual.h"

DRIVER_INITIALIZE DriverEntry;
static DRIVER_DISPATCH Read;

static ULONG_PTR RankOf(PLIST_ENTRY Entry) {
    return (ULONG_PTR)OfEntry(Entry)->Tail.Overlay.DriverContext[1];
}

static NTSTATUS NTAPI InsertByRank(PIO_CSQ Csq, PIRP Irp, PVOID InsertContext) {
    PLIST_ENTRY Head = &CONTAINING_RECORD(Csq, WAITING, Queue)->Irps, Entry = Head->Flink;
    ULONG_PTR Rank = *(const ULONG *)InsertContext;
    if (IsClosed(Irp)) {
        return STATUS_FILE_CLOSED;
    }
    while (Entry != Head && RankOf(Entry) <= Rank) {
        Entry = Entry->Flink;
    }
    Irp->Tail.Overlay.DriverContext[1] = (PVOID)Rank;
    InsertTailList(Entry, &Irp->Tail.Overlay.ListEntry); /* before Entry */
    return STATUS_PENDING;
}

static NTSTATUS NTAPI Read(PDEVICE_OBJECT DeviceObject, PIRP Irp) {
    ULONG Rank = IoGetCurrentIrpStackLocation(Irp)->Parameters.Read.Length % 3;
    NTSTATUS Status = IoCsqInsertIrpEx(DeviceObject->DeviceExtension, Irp, NULL, &Rank);
    return NT_SUCCESS(Status) ? STATUS_PENDING : Complete(Irp, Status);
}

NTSTATUS NTAPI DriverEntry(PDRIVER_OBJECT DriverObject, PUNICODE_STRING RegistryPath) {
    PWAITING Reads = Begin(DriverObject, sizeof(WAITING), Read, WriteToQueue, CleanupWaiting);
    UNREFERENCED_PARAMETER(RegistryPath);
    if (Reads == NULL) {
        return STATUS_INSUFFICIENT_RESOURCES;
    }
    InitializeOwn(Reads, InsertByRank, PeekWaiting, CompleteWaiting);
    return STATUS_SUCCESS;
}
