/* What packet.c and ../unusual/packets.c share, which use IoStartPacket: the I/O manager calls
 * StartIo with one request at a time, and a timer's DPC ends the work at it. */
#ifndef PACKET_H
#define PACKET_H
#include "device.h"

DRIVER_INITIALIZE DriverEntry;
static DRIVER_DISPATCH ReadWrite;
static DRIVER_STARTIO StartIo;
static DRIVER_CANCEL CancelPacket;
static KDEFERRED_ROUTINE WorkDone;

static VOID NTAPI WorkDone(PKDPC Dpc, PVOID Context, PVOID First, PVOID Second) {
    PDEVICE_OBJECT DeviceObject = Context;
    PIRP Irp = DeviceObject->CurrentIrp;
    UNREFERENCED_PARAMETER(Dpc);
    UNREFERENCED_PARAMETER(First);
    UNREFERENCED_PARAMETER(Second);
    IoStartNextPacket(DeviceObject, TRUE);
    Complete(Irp, STATUS_SUCCESS);
}

NTSTATUS NTAPI DriverEntry(PDRIVER_OBJECT DriverObject, PUNICODE_STRING RegistryPath) {
    PWORK Work = Begin(DriverObject, sizeof(WORK), ReadWrite, ReadWrite, Succeed, UnloadAfterDpcs);
    UNREFERENCED_PARAMETER(RegistryPath);
    if (Work == NULL) {
        return STATUS_INSUFFICIENT_RESOURCES;
    }
    DriverObject->DriverStartIo = StartIo;
    InitializeWork(Work, WorkDone, DriverObject->DeviceObject);
    return STATUS_SUCCESS;
}

#endif
