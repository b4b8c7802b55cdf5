/* IRPs that a driver has the I/O manager build for another driver. Those that an event belongs to
 * are the manager's: once all completion routines let one go on, it writes the result, signals the
 * event and frees the IRP. */
#include "internal.h"

#include <stdlib.h>

static struct iocsq_irp *build(PDEVICE_OBJECT device, UCHAR major, const char *call) {
    iocsq_expect_irql(APC_LEVEL, call);
    struct iocsq_irp *i = iocsq_is_scarce(call) ? NULL : iocsq_new_irp(device->StackSize, true);
    if (i) {
        iocsq_log_sent(i, "%s = irp %u", call, i->index);
        IoGetNextIrpStackLocation(&i->irp)->MajorFunction = major;
    }
    return i;
}

/* Memory of the manager's for so many bytes, which begin with these. */
static PVOID system_buffer(const void *from, ULONG filled, ULONG size) {
    PVOID made = size > 0 ? calloc(1, size) : NULL;
    if (size > 0 && !made) {
        iocsq_fail("no memory for a buffer");
    }
    if (from && filled > 0) {
        memcpy(made, from, filled);
    }
    iocsq_begin_memory(made, size);
    return made;
}

static void give_direct(struct iocsq_irp *i, PVOID buffer, ULONG length) {
    MDL mdl = { NULL, buffer, buffer, length, 0 };
    i->mdl = mdl;
    i->irp.MdlAddress = length > 0 ? &i->mdl : NULL;
}

static void begin_built(struct iocsq_irp *i, PKEVENT event, PIO_STATUS_BLOCK result) {
    i->built.result = result;
    i->built.event = event;
    i->irp.UserIosb = result;
}

PIRP NTAPI IoBuildDeviceIoControlRequest(ULONG IoControlCode, PDEVICE_OBJECT DeviceObject,
                                         PVOID InputBuffer, ULONG InputBufferLength,
                                         PVOID OutputBuffer, ULONG OutputBufferLength,
                                         BOOLEAN InternalDeviceIoControl, PKEVENT Event,
                                         PIO_STATUS_BLOCK IoStatusBlock) {
    ULONG larger = InputBufferLength > OutputBufferLength ? InputBufferLength : OutputBufferLength;
    struct iocsq_irp *i = build(DeviceObject,
                                InternalDeviceIoControl ? IRP_MJ_INTERNAL_DEVICE_CONTROL
                                                        : IRP_MJ_DEVICE_CONTROL,
                                "IoBuildDeviceIoControlRequest");
    if (!i) {
        return NULL;
    }
    PIO_STACK_LOCATION next = IoGetNextIrpStackLocation(&i->irp);
    next->Parameters.DeviceIoControl.IoControlCode = IoControlCode;
    next->Parameters.DeviceIoControl.InputBufferLength = InputBufferLength;
    next->Parameters.DeviceIoControl.OutputBufferLength = OutputBufferLength;
    begin_built(i, Event, IoStatusBlock);
    switch (METHOD_FROM_CTL_CODE(IoControlCode)) {
    case METHOD_BUFFERED:
        i->built.buffer = system_buffer(InputBuffer, InputBufferLength, larger);
        i->built.output = OutputBuffer;
        i->built.most = OutputBufferLength;
        break;
    case METHOD_NEITHER:
        next->Parameters.DeviceIoControl.Type3InputBuffer = InputBuffer;
        i->irp.UserBuffer = OutputBuffer;
        break;
    default:
        i->built.buffer = system_buffer(InputBuffer, InputBufferLength, InputBufferLength);
        give_direct(i, OutputBuffer, OutputBufferLength);
    }
    i->irp.AssociatedIrp.SystemBuffer = i->built.buffer;
    return &i->irp;
}

/* A read or a write of this buffer, as the device's flags ask for it, or one of no bytes. */
static struct iocsq_irp *build_transfer(ULONG major, PDEVICE_OBJECT device, PVOID buffer,
                                        ULONG length, const LARGE_INTEGER *offset,
                                        const char *call) {
    struct iocsq_irp *i = build(device, (UCHAR)major, call);
    bool reads = major == IRP_MJ_READ;
    if (!i || (!reads && major != IRP_MJ_WRITE)) {
        return i;
    }
    PIO_STACK_LOCATION next = IoGetNextIrpStackLocation(&i->irp);
    next->Parameters.Read.Length = length; /* as of a write */
    next->Parameters.Read.ByteOffset.QuadPart = offset ? offset->QuadPart : 0;
    if (device->Flags & DO_BUFFERED_IO) {
        i->built.buffer = system_buffer(buffer, reads ? 0 : length, length);
        i->built.output = reads ? buffer : NULL;
        i->built.most = length;
        i->irp.AssociatedIrp.SystemBuffer = i->built.buffer;
    } else if (device->Flags & DO_DIRECT_IO) {
        give_direct(i, buffer, length);
    } else {
        i->irp.UserBuffer = buffer;
    }
    return i;
}

PIRP NTAPI IoBuildSynchronousFsdRequest(ULONG MajorFunction, PDEVICE_OBJECT DeviceObject,
                                        PVOID Buffer, ULONG Length, PLARGE_INTEGER StartingOffset,
                                        PKEVENT Event, PIO_STATUS_BLOCK IoStatusBlock) {
    struct iocsq_irp *i = build_transfer(MajorFunction, DeviceObject, Buffer, Length,
                                         StartingOffset, "IoBuildSynchronousFsdRequest");
    if (!i) {
        return NULL;
    }
    begin_built(i, Event, IoStatusBlock);
    return &i->irp;
}

PIRP NTAPI IoBuildAsynchronousFsdRequest(ULONG MajorFunction, PDEVICE_OBJECT DeviceObject,
                                         PVOID Buffer, ULONG Length, PLARGE_INTEGER StartingOffset,
                                         PIO_STATUS_BLOCK IoStatusBlock) {
    struct iocsq_irp *i = build_transfer(MajorFunction, DeviceObject, Buffer, Length,
                                         StartingOffset, "IoBuildAsynchronousFsdRequest");
    if (!i) {
        return NULL;
    }
    i->irp.UserIosb = IoStatusBlock;
    return &i->irp;
}

/* ---- Their ends ---- */
bool iocsq_is_built(const struct iocsq_irp *i) {
    return i->built.result != NULL;
}

void iocsq_free_built(struct iocsq_irp *i) {
    static const struct iocsq_built none;
    free(i->built.buffer);
    i->built = none;
}

/* The order of Windows: the result, then the event, after which its sender goes on. */
void iocsq_end_built(struct iocsq_irp *i) {
    struct iocsq_built built = i->built;
    IO_STATUS_BLOCK result = i->irp.IoStatus;
    size_t count = result.Information < built.most ? result.Information : built.most;
    if (built.output && built.buffer && !NT_ERROR(result.Status)) {
        memcpy(built.output, built.buffer, count);
    }
    iocsq_lock_state_for(NULL, 0);
    iocsq_touch_irps();
    iocsq_end_own(i);
    iocsq_unlock_state();
    *built.result = result;
    if (built.event) {
        KeSetEvent(built.event, IO_NO_INCREMENT, FALSE);
    }
}
