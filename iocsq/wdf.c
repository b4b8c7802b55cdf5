/* The framework's driver and devices: a WDM driver whose dispatch routines are the framework's, and
 * whose AddDevice calls EvtDriverDeviceAdd, as the PnP manager's call reaches a KMDF driver. */
#include "wdfobjects.h"

struct driver {
    struct iocsq_wdf_object object;
    PDRIVER_OBJECT wdm;
    WDF_DRIVER_CONFIG config;
};
static struct driver *the_driver; /* null: none is loaded */

struct WDFDEVICE_INIT {
    PDEVICE_OBJECT physical;
    struct iocsq_wdf_device *made; /* null: none yet */
    ULONG flags;                   /* of its device object */
    WDF_OBJECT_ATTRIBUTES request_attributes, file_attributes;
    bool has_files;
    WDF_FILEOBJECT_CONFIG files;
    WDF_PNPPOWER_EVENT_CALLBACKS power;
};

static struct iocsq_wdf_device *device_of(PDEVICE_OBJECT wdm) {
    return *(struct iocsq_wdf_device **)wdm->DeviceExtension;
}

static NTSTATUS complete(PIRP irp, NTSTATUS status) {
    irp->IoStatus.Status = status;
    IoCompleteRequest(irp, IO_NO_INCREMENT);
    return status;
}

/* ---- Requests ---- */
static NTSTATUS NTAPI dispatch(PDEVICE_OBJECT wdm, PIRP irp) {
    struct iocsq_wdf_device *d = device_of(wdm);
    struct iocsq_wdf_queue *q = d->by_major[IoGetCurrentIrpStackLocation(irp)->MajorFunction];
    struct iocsq_wdf_request *r = NULL;
    q = q ? q : d->default_queue;
    IoMarkIrpPending(irp);
    if (q) {
        r = iocsq_wdf_begin(d, irp);
    }
    if (r) {
        iocsq_wdf_arrive(q, r);
    } else {
        complete(irp, q ? STATUS_INSUFFICIENT_RESOURCES : STATUS_INVALID_DEVICE_REQUEST);
    }
    return STATUS_PENDING;
}

/* ---- File objects ---- */
struct iocsq_wdf_file *iocsq_wdf_file_of(const FILE_OBJECT *file) {
    return file ? file->FsContext : NULL;
}

static NTSTATUS open_file(struct iocsq_wdf_device *d, PFILE_OBJECT file) {
    struct iocsq_wdf_file *made =
        iocsq_wdf_make(IOCSQ_WDF_FILE, sizeof *made, &d->file_attributes, d);
    if (!made) {
        return STATUS_INSUFFICIENT_RESOURCES;
    }
    made->wdm = file;
    made->device = d;
    file->FsContext = made;
    return STATUS_SUCCESS;
}

static NTSTATUS NTAPI dispatch_create(PDEVICE_OBJECT wdm, PIRP irp) {
    struct iocsq_wdf_device *d = device_of(wdm);
    PFILE_OBJECT file = IoGetCurrentIrpStackLocation(irp)->FileObject;
    NTSTATUS status = d->has_files ? open_file(d, file) : STATUS_SUCCESS;
    if (!NT_SUCCESS(status) || !d->has_files || !d->files.EvtDeviceFileCreate) {
        return complete(irp, status);
    }
    struct iocsq_wdf_request *r = iocsq_wdf_begin(d, irp);
    if (!r) {
        iocsq_wdf_end(&iocsq_wdf_file_of(file)->object);
        return complete(irp, STATUS_INSUFFICIENT_RESOURCES);
    }
    struct iocsq_wdf_entry entry = iocsq_wdf_enter();
    IoMarkIrpPending(irp);
    d->files.EvtDeviceFileCreate((WDFDEVICE)(void *)d, iocsq_wdf_handle(r),
                                 (WDFFILEOBJECT)file->FsContext);
    iocsq_wdf_leave(entry, "EvtDeviceFileCreate");
    return STATUS_PENDING;
}

/* With the next call: EvtFileCleanup and EvtFileClose have one type. */
static void call_back(PFN_WDF_FILE_CLEANUP callback, const FILE_OBJECT *file, const char *name) {
    struct iocsq_wdf_entry entry = iocsq_wdf_enter();
    if (callback) {
        callback((WDFFILEOBJECT)file->FsContext);
        iocsq_wdf_leave(entry, name);
    }
}

/* The driver hears of it first, and then its file object's requests on queues are cancelled. */
static NTSTATUS NTAPI dispatch_cleanup(PDEVICE_OBJECT wdm, PIRP irp) {
    struct iocsq_wdf_device *d = device_of(wdm);
    PFILE_OBJECT file = IoGetCurrentIrpStackLocation(irp)->FileObject;
    call_back(d->files.EvtFileCleanup, file, "EvtFileCleanup");
    iocsq_wdf_flush(d, file);
    return complete(irp, STATUS_SUCCESS);
}

static NTSTATUS NTAPI dispatch_close(PDEVICE_OBJECT wdm, PIRP irp) {
    struct iocsq_wdf_device *d = device_of(wdm);
    PFILE_OBJECT file = IoGetCurrentIrpStackLocation(irp)->FileObject;
    call_back(d->files.EvtFileClose, file, "EvtFileClose");
    if (d->has_files) {
        iocsq_wdf_end(&iocsq_wdf_file_of(file)->object);
    }
    return complete(irp, STATUS_SUCCESS);
}

WDFDEVICE WdfFileObjectGetDevice(WDFFILEOBJECT FileObject) {
    const struct iocsq_wdf_file *file =
        iocsq_wdf_known(FileObject, IOCSQ_WDF_FILE, "WdfFileObjectGetDevice");
    return (WDFDEVICE)(void *)file->device;
}

PFILE_OBJECT WdfFileObjectWdmGetFileObject(WDFFILEOBJECT FileObject) {
    const struct iocsq_wdf_file *file =
        iocsq_wdf_known(FileObject, IOCSQ_WDF_FILE, "WdfFileObjectWdmGetFileObject");
    return file->wdm;
}

/* ---- PnP ---- */
static NTSTATUS start(struct iocsq_wdf_device *d) {
    WDFDEVICE device = (WDFDEVICE)(void *)d;
    NTSTATUS status = STATUS_SUCCESS;
    if (d->power.EvtDevicePrepareHardware) {
        status = d->power.EvtDevicePrepareHardware(device, NULL, NULL);
    }
    if (NT_SUCCESS(status) && d->power.EvtDeviceD0Entry) {
        status = d->power.EvtDeviceD0Entry(device, WdfPowerDeviceD3Final);
    }
    return status;
}

static void end_device(struct iocsq_wdf_device *d) {
    PDEVICE_OBJECT wdm = d->wdm;
    IoDetachDevice(d->lower);
    iocsq_wdf_end(&d->object);
    IoDeleteDevice(wdm);
}

static NTSTATUS remove_device(struct iocsq_wdf_device *d, PIRP irp) {
    WDFDEVICE device = (WDFDEVICE)(void *)d;
    if (d->power.EvtDeviceD0Exit) {
        d->power.EvtDeviceD0Exit(device, WdfPowerDeviceD3Final);
    }
    if (d->power.EvtDeviceReleaseHardware) {
        d->power.EvtDeviceReleaseHardware(device, NULL);
    }
    IoSkipCurrentIrpStackLocation(irp);
    NTSTATUS status = IoCallDriver(d->lower, irp);
    end_device(d);
    return status;
}

static NTSTATUS NTAPI dispatch_pnp(PDEVICE_OBJECT wdm, PIRP irp) {
    struct iocsq_wdf_device *d = device_of(wdm);
    switch (IoGetCurrentIrpStackLocation(irp)->MinorFunction) {
    case IRP_MN_START_DEVICE:
        IoForwardIrpSynchronously(d->lower, irp);
        return complete(irp, NT_SUCCESS(irp->IoStatus.Status) ? start(d) : irp->IoStatus.Status);
    case IRP_MN_REMOVE_DEVICE: return remove_device(d, irp);
    default: IoSkipCurrentIrpStackLocation(irp); return IoCallDriver(d->lower, irp);
    }
}

/* ---- The driver ---- */
static NTSTATUS NTAPI add_device(PDRIVER_OBJECT wdm, PDEVICE_OBJECT physical) {
    struct WDFDEVICE_INIT init = { .physical = physical, .flags = DO_BUFFERED_IO };
    (void)wdm;
    WDF_OBJECT_ATTRIBUTES_INIT(&init.request_attributes);
    WDF_OBJECT_ATTRIBUTES_INIT(&init.file_attributes);
    NTSTATUS status =
        the_driver->config.EvtDriverDeviceAdd((WDFDRIVER)(void *)the_driver, &init);
    if (!NT_SUCCESS(status) && init.made) {
        end_device(init.made);
    }
    return status;
}

static VOID NTAPI unload(PDRIVER_OBJECT wdm) {
    (void)wdm;
    if (the_driver->config.EvtDriverUnload) {
        the_driver->config.EvtDriverUnload((WDFDRIVER)(void *)the_driver);
    }
    iocsq_wdf_end(&the_driver->object);
    the_driver = NULL;
    iocsq_wdf_check_dereferenced();
}

bool iocsq_has_framework(void) {
    return the_driver != NULL;
}

NTSTATUS WdfDriverCreate(PDRIVER_OBJECT DriverObject, PCUNICODE_STRING RegistryPath,
                         PWDF_OBJECT_ATTRIBUTES DriverAttributes, PWDF_DRIVER_CONFIG DriverConfig,
                         WDFDRIVER *Driver) {
    (void)RegistryPath;
    if (the_driver) {
        iocsq_disagree(NULL, "WdfDriverCreate a second time");
    }
    struct driver *made = iocsq_wdf_make(IOCSQ_WDF_DRIVER, sizeof *made, DriverAttributes, NULL);
    if (!made) {
        return STATUS_INSUFFICIENT_RESOURCES;
    }
    made->wdm = DriverObject;
    made->config = *DriverConfig;
    the_driver = made;
    DriverObject->DriverExtension->AddDevice = add_device;
    DriverObject->DriverUnload = unload;
    DriverObject->MajorFunction[IRP_MJ_CREATE] = dispatch_create;
    DriverObject->MajorFunction[IRP_MJ_CLEANUP] = dispatch_cleanup;
    DriverObject->MajorFunction[IRP_MJ_CLOSE] = dispatch_close;
    DriverObject->MajorFunction[IRP_MJ_READ] = DriverObject->MajorFunction[IRP_MJ_WRITE] = dispatch;
    DriverObject->MajorFunction[IRP_MJ_DEVICE_CONTROL] = dispatch;
    DriverObject->MajorFunction[IRP_MJ_INTERNAL_DEVICE_CONTROL] = dispatch;
    DriverObject->MajorFunction[IRP_MJ_PNP] = dispatch_pnp;
    if (Driver) {
        *Driver = (WDFDRIVER)(void *)made;
    }
    return STATUS_SUCCESS;
}

WDFDRIVER WdfGetDriver(VOID) {
    return (WDFDRIVER)(void *)the_driver;
}

/* ---- Devices ---- */
VOID WdfDeviceInitSetIoType(PWDFDEVICE_INIT DeviceInit, WDF_DEVICE_IO_TYPE IoType) {
    DeviceInit->flags = IoType == WdfDeviceIoBuffered ? DO_BUFFERED_IO
                        : IoType == WdfDeviceIoDirect ? DO_DIRECT_IO
                                                      : 0;
}

VOID WdfDeviceInitSetRequestAttributes(PWDFDEVICE_INIT DeviceInit,
                                       PWDF_OBJECT_ATTRIBUTES RequestAttributes) {
    DeviceInit->request_attributes = *RequestAttributes;
}

VOID WdfDeviceInitSetFileObjectConfig(PWDFDEVICE_INIT DeviceInit,
                                      PWDF_FILEOBJECT_CONFIG FileObjectConfig,
                                      PWDF_OBJECT_ATTRIBUTES FileObjectAttributes) {
    DeviceInit->has_files = true;
    DeviceInit->files = *FileObjectConfig;
    if (FileObjectAttributes) {
        DeviceInit->file_attributes = *FileObjectAttributes;
    }
}

VOID WdfDeviceInitSetPnpPowerEventCallbacks(PWDFDEVICE_INIT DeviceInit,
                                            PWDF_PNPPOWER_EVENT_CALLBACKS Callbacks) {
    DeviceInit->power = *Callbacks;
}

static NTSTATUS attach(struct iocsq_wdf_device *d, const struct WDFDEVICE_INIT *init) {
    NTSTATUS status = IoCreateDevice(the_driver->wdm, sizeof d, NULL, FILE_DEVICE_UNKNOWN, 0, FALSE,
                                     &d->wdm);
    if (!NT_SUCCESS(status)) {
        return status;
    }
    d->lower = IoAttachDeviceToDeviceStack(d->wdm, init->physical);
    *(struct iocsq_wdf_device **)d->wdm->DeviceExtension = d;
    d->wdm->Flags |= init->flags;
    d->wdm->Flags &= ~(ULONG)DO_DEVICE_INITIALIZING;
    return STATUS_SUCCESS;
}

/* STATUS_INSUFFICIENT_RESOURCES: no memory. */
NTSTATUS WdfDeviceCreate(PWDFDEVICE_INIT *DeviceInit, PWDF_OBJECT_ATTRIBUTES DeviceAttributes,
                         WDFDEVICE *Device) {
    struct WDFDEVICE_INIT *init = *DeviceInit;
    struct iocsq_wdf_device *d =
        iocsq_wdf_make(IOCSQ_WDF_DEVICE, sizeof *d, DeviceAttributes, the_driver);
    if (!d) {
        return STATUS_INSUFFICIENT_RESOURCES;
    }
    d->request_attributes = init->request_attributes;
    d->file_attributes = init->file_attributes;
    d->has_files = init->has_files;
    d->files = init->files;
    d->power = init->power;
    NTSTATUS status = attach(d, init);
    if (!NT_SUCCESS(status)) {
        iocsq_wdf_end(&d->object);
        return status;
    }
    init->made = d;
    *DeviceInit = NULL;
    if (Device) {
        *Device = (WDFDEVICE)(void *)d;
    }
    return STATUS_SUCCESS;
}

static struct iocsq_wdf_device *known(WDFDEVICE device, const char *call) {
    return iocsq_wdf_known(device, IOCSQ_WDF_DEVICE, call);
}

NTSTATUS WdfDeviceConfigureRequestDispatching(WDFDEVICE Device, WDFQUEUE Queue,
                                              WDF_REQUEST_TYPE RequestType) {
    static const char call[] = "WdfDeviceConfigureRequestDispatching";
    known(Device, call)->by_major[RequestType] = iocsq_wdf_known(Queue, IOCSQ_WDF_QUEUE, call);
    return STATUS_SUCCESS;
}

WDFQUEUE WdfDeviceGetDefaultQueue(WDFDEVICE Device) {
    return (WDFQUEUE)(void *)known(Device, "WdfDeviceGetDefaultQueue")->default_queue;
}

WDFDRIVER WdfDeviceGetDriver(WDFDEVICE Device) {
    known(Device, "WdfDeviceGetDriver");
    return WdfGetDriver();
}

PDEVICE_OBJECT WdfDeviceWdmGetDeviceObject(WDFDEVICE Device) {
    return known(Device, "WdfDeviceWdmGetDeviceObject")->wdm;
}
