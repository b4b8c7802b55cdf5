/* What the drivers of this folder share: a device whose extension begins with WAITING. */
#ifndef DEVICE_H
#define DEVICE_H
#include "../drivers/waiting.h"

static inline NTSTATUS NTAPI CleanUpReads(PDEVICE_OBJECT DeviceObject, PIRP Irp) {
    CleanUp(DeviceObject->DeviceExtension, FileOf(Irp));
    return Succeed(DeviceObject, Irp);
}

/* Makes the driver's one device, and returns its extension, which is zero but for its WAITING; or
 * null. */
static inline PVOID Begin(PDRIVER_OBJECT DriverObject, ULONG ExtensionSize, PDRIVER_DISPATCH Read,
                          PDRIVER_DISPATCH Write, PDRIVER_UNLOAD Unload) {
    PDEVICE_OBJECT DeviceObject;
    if (!NT_SUCCESS(MakeDevice(DriverObject, ExtensionSize, &DeviceObject))) {
        return NULL;
    }
    InitializeWaiting(DeviceObject->DeviceExtension, CompleteWaiting);
    DriverObject->MajorFunction[IRP_MJ_READ] = Read;
    DriverObject->MajorFunction[IRP_MJ_WRITE] = Write;
    DriverObject->MajorFunction[IRP_MJ_CLEANUP] = CleanUpReads;
    DriverObject->DriverUnload = Unload;
    return DeviceObject->DeviceExtension;
}

#endif
