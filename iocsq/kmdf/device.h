/* What the KMDF drivers of this folder share. WRONG says where a driver is wrong. */
#ifndef DEVICE_H
#define DEVICE_H
#include <ntddk.h>
#include <wdf.h>

#ifndef WRONG
#define WRONG 0
#endif

DRIVER_INITIALIZE DriverEntry;
static EVT_WDF_DRIVER_DEVICE_ADD EvtDriverDeviceAdd;

NTSTATUS NTAPI DriverEntry(PDRIVER_OBJECT DriverObject, PUNICODE_STRING RegistryPath) {
    WDF_DRIVER_CONFIG Config;
    WDF_DRIVER_CONFIG_INIT(&Config, EvtDriverDeviceAdd);
    return WdfDriverCreate(DriverObject, RegistryPath, WDF_NO_OBJECT_ATTRIBUTES, &Config,
                           WDF_NO_HANDLE);
}

/* Attributes of an object that ends with its parent. */
static inline WDF_OBJECT_ATTRIBUTES ChildOf(WDFOBJECT Parent) {
    WDF_OBJECT_ATTRIBUTES Attributes;
    WDF_OBJECT_ATTRIBUTES_INIT(&Attributes);
    Attributes.ParentObject = Parent;
    return Attributes;
}

/* The default queue, with its callbacks; each may be null. */
static inline NTSTATUS MakeDefaultQueue(WDFDEVICE Device, WDF_IO_QUEUE_DISPATCH_TYPE Type,
                                        PFN_WDF_IO_QUEUE_IO_READ EvtIoRead,
                                        PFN_WDF_IO_QUEUE_IO_WRITE EvtIoWrite,
                                        PFN_WDF_IO_QUEUE_IO_DEFAULT EvtIoDefault) {
    WDF_IO_QUEUE_CONFIG Config;
    WDF_IO_QUEUE_CONFIG_INIT_DEFAULT_QUEUE(&Config, Type);
    Config.EvtIoRead = EvtIoRead;
    Config.EvtIoWrite = EvtIoWrite;
    Config.EvtIoDefault = EvtIoDefault;
    return WdfIoQueueCreate(Device, &Config, WDF_NO_OBJECT_ATTRIBUTES, WDF_NO_HANDLE);
}

#endif
