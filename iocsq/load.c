/* Drivers: how one is loaded and unloaded, and what ends a run whose driver uses a bad address or
 * takes too long. */
#include "internal.h"

#include <stdlib.h>

/* ---- What ends a run ---- */
void iocsq_report_bad_address(void) {
    char text[80];
    snprintf(text, sizeof text, "iocsq: t%u: the driver used a bad address\n", iocsq_thread());
    iocsq_write_error(text);
    if (iocsq_sent_unbuffered()) {
        iocsq_write_error("  A read or write had no system buffer: its device's Flags have neither "
                          "DO_BUFFERED_IO nor DO_DIRECT_IO.\n");
    }
    iocsq_show_places(true);
    iocsq_show_last_calls();
}

void iocsq_report_time_over(void) {
    iocsq_write_error("iocsq: the run takes longer than it may: a thread waits for ever, or goes "
                      "round.\n");
    iocsq_show_last_calls();
    iocsq_exit(IOCSQ_DISAGREES);
}

VOID IocsqLimit(ULONG Seconds) {
    iocsq_limit(Seconds);
}

/* -fsanitize=undefined calls this before its own report, of a member of null, say. */
void __ubsan_on_report(void);
void __ubsan_on_report(void) {
    iocsq_ask_for_policy();
}

static void catch_bad_addresses(void) {
    static bool caught;
    if (!caught) {
        caught = true;
        iocsq_catch_bad_addresses();
    }
}

/* ---- Loading and unloading ---- */
static NTSTATUS complete(PIRP irp, NTSTATUS status) {
    irp->IoStatus.Status = status;
    IoCompleteRequest(irp, IO_NO_INCREMENT);
    return status;
}

static NTSTATUS NTAPI refuse(PDEVICE_OBJECT device, PIRP irp) {
    (void)device;
    return complete(irp, STATUS_INVALID_DEVICE_REQUEST);
}

static NTSTATUS NTAPI succeed(PDEVICE_OBJECT device, PIRP irp) {
    (void)device;
    return complete(irp, STATUS_SUCCESS);
}

/* A driver, and below it the bus that its device is on, which refuses all but to start, stop and
 * remove it. */
struct loaded {
    DRIVER_OBJECT object; /* first */
    DRIVER_EXTENSION extension;
    DRIVER_OBJECT bus;
    PDEVICE_OBJECT physical; /* null: the driver has no AddDevice */
};

static void refuse_all(PDRIVER_OBJECT driver) {
    for (int major = 0; major <= IRP_MJ_MAXIMUM_FUNCTION; major++) {
        driver->MajorFunction[major] = refuse;
    }
}

/* As the PnP manager finds a device: the driver's AddDevice attaches one of its own to it, which is
 * started. */
static NTSTATUS add_device(struct loaded *of) {
    refuse_all(&of->bus);
    of->bus.MajorFunction[IRP_MJ_PNP] = of->bus.MajorFunction[IRP_MJ_CREATE] =
        of->bus.MajorFunction[IRP_MJ_CLEANUP] = of->bus.MajorFunction[IRP_MJ_CLOSE] = succeed;
    NTSTATUS status =
        IoCreateDevice(&of->bus, 0, NULL, FILE_DEVICE_UNKNOWN, 0, FALSE, &of->physical);
    if (NT_SUCCESS(status)) {
        status = of->extension.AddDevice(&of->object, of->physical);
    }
    return NT_SUCCESS(status) ? iocsq_send_pnp(of->physical, IRP_MN_START_DEVICE) : status;
}

static NTSTATUS load(struct loaded *of, PDRIVER_INITIALIZE entry) {
    static UNICODE_STRING registry_path;
    of->object.DriverExtension = &of->extension;
    of->extension.DriverObject = &of->object;
    refuse_all(&of->object);
    NTSTATUS status = entry(&of->object, &registry_path);
    return NT_SUCCESS(status) && of->extension.AddDevice ? add_device(of) : status;
}

PDRIVER_OBJECT IocsqLoad(PDRIVER_INITIALIZE DriverEntry) {
    struct loaded *of = calloc(1, sizeof *of);
    if (!of) {
        return NULL;
    }
    catch_bad_addresses();
    if (!NT_SUCCESS(load(of, DriverEntry)) || !of->object.DeviceObject) {
        free(of);
        return NULL;
    }
    return &of->object;
}

static void remove_device(struct loaded *of) {
    if (of->physical) {
        iocsq_send_pnp(of->physical, IRP_MN_REMOVE_DEVICE);
        IoDeleteDevice(of->physical);
    }
}

static void check_own_freed(void) {
    for (uint32_t at = 0; at < iocsq_irp_count(); at++) {
        struct iocsq_irp *i = iocsq_irp_number(at);
        if (i->used && i->own) {
            iocsq_disagree(i, "the driver was unloaded, and irp %u of its own was not freed",
                           i->index);
        }
    }
}

VOID IocsqUnload(PDRIVER_OBJECT Driver) {
    iocsq_check_all_completed();
    remove_device((struct loaded *)(void *)Driver);
    if (Driver->DriverUnload) {
        Driver->DriverUnload(Driver);
    }
    iocsq_join_threads();
    iocsq_check_interrupts_disconnected();
    iocsq_end_deferred();
    iocsq_end_works();
    iocsq_check_timers_deleted();
    iocsq_check_no_resource(NULL, SIZE_MAX, "the driver was unloaded");
    if (Driver->DeviceObject) {
        iocsq_disagree(NULL, "the driver was unloaded, and a device of it is left");
    }
    check_own_freed();
    iocsq_check_links_deleted();
    iocsq_check_memory_freed();
    iocsq_end_queues();
    iocsq_report_race();
    free((struct loaded *)(void *)Driver);
}
