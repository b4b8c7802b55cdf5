/* Devices, what they are attached to, and symbolic links to them: each is checked for uses other
 * than it was made for. */
#include "internal.h"

#include <stdlib.h>

const UNICODE_STRING IocsqSecurity = RTL_CONSTANT_STRING(L"");

struct device {
    DEVICE_OBJECT object; /* first */
    size_t extension_size;
    LONG references; /* of the driver */
    uint32_t held;   /* by work items that are queued or run: it stays until they have run */
    bool deleted;
    struct device *next;
};
static struct device *devices; /* with the references, under the state's lock */

NTSTATUS NTAPI IoCreateDevice(PDRIVER_OBJECT DriverObject, ULONG DeviceExtensionSize,
                              PUNICODE_STRING DeviceName, DEVICE_TYPE DeviceType,
                              ULONG DeviceCharacteristics, BOOLEAN Exclusive,
                              PDEVICE_OBJECT *DeviceObject) {
    struct device *made = calloc(1, sizeof *made);
    PVOID extension = calloc(1, DeviceExtensionSize + (size_t)1);
    (void)DeviceName, (void)Exclusive;
    iocsq_expect_irql(APC_LEVEL, "IoCreateDevice");
    if (!made || !extension) {
        free(made);
        free(extension);
        return STATUS_INSUFFICIENT_RESOURCES;
    }
    made->extension_size = DeviceExtensionSize;
    made->object.DriverObject = DriverObject;
    made->object.DeviceExtension = extension;
    made->object.DeviceType = DeviceType;
    made->object.Characteristics = DeviceCharacteristics;
    made->object.StackSize = 1;
    made->object.Flags = DO_DEVICE_INITIALIZING;
    KeInitializeDeviceQueue(&made->object.DeviceQueue);
    made->object.NextDevice = DriverObject->DeviceObject;
    DriverObject->DeviceObject = &made->object;
    *DeviceObject = &made->object;
    iocsq_begin_memory(extension, DeviceExtensionSize);
    iocsq_begin_memory(&made->object, sizeof made->object);
    iocsq_lock_state_for(&devices, IOCSQ_CHANGES);
    made->next = devices;
    devices = made;
    iocsq_unlock_state();
    return STATUS_SUCCESS;
}

/* The link to a device in the list; to null: it is none. */
static struct device **link_of(const void *object) {
    struct device **at = &devices;
    while (*at && (const void *)*at != object) {
        at = &(*at)->next;
    }
    return at;
}

bool iocsq_reference_device(PVOID object, int change) {
    struct device *device = *link_of(object);
    if (device) {
        device->references += change;
        if (device->references < 0) {
            iocsq_disagree(NULL,
                           "ObDereferenceObject of a device, more often than it was referenced");
        }
    }
    return device != NULL;
}

static void free_device(struct device *device) {
    iocsq_end_queues_in(device->object.DeviceExtension, device->extension_size,
                        "IoDeleteDevice of a device");
    iocsq_end_memory(device->object.DeviceExtension, device->extension_size, "IoDeleteDevice",
                     NULL);
    iocsq_lock_state_for(&devices, IOCSQ_CHANGES);
    *link_of(device) = device->next;
    iocsq_unlock_state();
    free(device->object.DeviceExtension);
    free(device);
}

void iocsq_hold_device(const void *object) {
    struct device *device = *link_of(object);
    if (device) {
        iocsq_touch(device, IOCSQ_CHANGES);
        device->held++;
    }
}

void iocsq_let_go_of_device(const void *object) {
    iocsq_lock_state_for(object, IOCSQ_SYNC);
    struct device *device = *link_of(object);
    bool goes = device && --device->held == 0 && device->deleted;
    iocsq_unlock_state();
    if (goes) {
        free_device(device);
    }
}

static struct device *to_delete(const void *object) {
    iocsq_lock_state_for(&devices, IOCSQ_LOOKS);
    struct device *device = *link_of(object);
    iocsq_unlock_state();
    if (!device || device->deleted) {
        iocsq_disagree(NULL, "IoDeleteDevice of a device that was deleted before, or is none");
    }
    return device;
}

static void check_nothing_runs_in(const void *from, size_t size) {
    iocsq_check_no_deferred(from, size, "IoDeleteDevice of a device");
    iocsq_check_no_running(from, size, "IoDeleteDevice of a device");
}

VOID NTAPI IoDeleteDevice(PDEVICE_OBJECT DeviceObject) {
    struct device *device = to_delete(DeviceObject);
    iocsq_expect_irql(APC_LEVEL, "IoDeleteDevice");
    PDEVICE_OBJECT *at = &DeviceObject->DriverObject->DeviceObject;
    if (DeviceObject->AttachedDevice) {
        iocsq_disagree(NULL, "IoDeleteDevice of a device, and another is attached to it");
    }
    if (device->references > 0) {
        iocsq_disagree(NULL, "IoDeleteDevice of a device, and a reference to it was not dropped");
    }
    check_nothing_runs_in(&DeviceObject->Dpc, sizeof DeviceObject->Dpc);
    check_nothing_runs_in(DeviceObject->DeviceExtension, device->extension_size);
    iocsq_check_no_lookaside(DeviceObject->DeviceExtension, device->extension_size);
    iocsq_check_no_resource(DeviceObject->DeviceExtension, device->extension_size,
                            "IoDeleteDevice of a device");
    while (*at != DeviceObject) {
        at = &(*at)->NextDevice;
    }
    *at = DeviceObject->NextDevice;
    iocsq_lock_state_for(device, IOCSQ_SYNC);
    device->deleted = true;
    bool held = device->held > 0;
    iocsq_unlock_state();
    if (!held) {
        free_device(device);
    }
}

PDEVICE_OBJECT NTAPI IoAttachDeviceToDeviceStack(PDEVICE_OBJECT SourceDevice,
                                                 PDEVICE_OBJECT TargetDevice) {
    PDEVICE_OBJECT top = TargetDevice;
    while (top->AttachedDevice) {
        top = top->AttachedDevice;
    }
    if (top->StackSize == IOCSQ_STACK) {
        return NULL;
    }
    top->AttachedDevice = SourceDevice;
    SourceDevice->StackSize = (CCHAR)(top->StackSize + 1);
    return top;
}

VOID NTAPI IoDetachDevice(PDEVICE_OBJECT TargetDevice) {
    iocsq_expect_irql(PASSIVE_LEVEL, "IoDetachDevice");
    if (!TargetDevice->AttachedDevice) {
        iocsq_disagree(NULL, "IoDetachDevice of a device that none is attached to");
    }
    TargetDevice->AttachedDevice = NULL;
}

/* ---- Symbolic links: their names, until they are deleted, under the state's lock ---- */
enum { LINKS = 64, NAME = 128 };
static struct {
    size_t length; /* in bytes; 0: none */
    unsigned char name[NAME * sizeof(WCHAR)];
} links[LINKS];

/* The place of this name, or of the first that is free where it is null. LINKS: there is none. */
static uint32_t place_of(const UNICODE_STRING *name) {
    uint32_t at = 0;
    while (at < LINKS && (links[at].length != (name ? name->Length : 0) ||
                          (name && memcmp(links[at].name, name->Buffer, name->Length) != 0))) {
        at++;
    }
    return at;
}

static void expect_name(const UNICODE_STRING *name, const char *call) {
    iocsq_expect_irql(PASSIVE_LEVEL, call);
    if (name->Length == 0 || name->Length > sizeof links[0].name) {
        iocsq_disagree(NULL, "%s with a name of %u bytes", call, name->Length);
    }
}

NTSTATUS NTAPI IoCreateSymbolicLink(PUNICODE_STRING SymbolicLinkName, PUNICODE_STRING DeviceName) {
    NTSTATUS status = STATUS_OBJECT_NAME_COLLISION;
    (void)DeviceName;
    expect_name(SymbolicLinkName, "IoCreateSymbolicLink");
    iocsq_lock_state();
    uint32_t at = place_of(NULL);
    if (at == LINKS) {
        iocsq_fail("more than %u symbolic links", (unsigned)LINKS);
    }
    if (place_of(SymbolicLinkName) == LINKS) {
        links[at].length = SymbolicLinkName->Length;
        memcpy(links[at].name, SymbolicLinkName->Buffer, links[at].length);
        status = STATUS_SUCCESS;
    }
    iocsq_unlock_state();
    return status;
}

NTSTATUS NTAPI IoDeleteSymbolicLink(PUNICODE_STRING SymbolicLinkName) {
    expect_name(SymbolicLinkName, "IoDeleteSymbolicLink");
    iocsq_lock_state();
    uint32_t at = place_of(SymbolicLinkName);
    if (at < LINKS) {
        links[at].length = 0;
    }
    iocsq_unlock_state();
    return at < LINKS ? STATUS_SUCCESS : STATUS_OBJECT_NAME_NOT_FOUND;
}

void iocsq_check_links_deleted(void) {
    for (uint32_t at = 0; at < LINKS; at++) {
        if (links[at].length > 0) {
            iocsq_disagree(NULL,
                           "the driver was unloaded, and a symbolic link of it was not deleted");
        }
    }
}
