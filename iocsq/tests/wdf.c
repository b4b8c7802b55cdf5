/* Calls of KMDF's that a driver must not make, each with its report. misuse.h says how it is run.
 * The calls are made for a write, in EvtIoDefault. */
#include "iocsq/wdf.h"
#include "misuse.h"

static WDFDEVICE device;
static WDFQUEUE manual;
static WDFTIMER timer;
static void (*misuse)(WDFREQUEST request);

static VOID EvtRequestCancel(WDFREQUEST request) { WdfRequestComplete(request, STATUS_CANCELLED); }

/* ---- Handles and objects ---- */
static void use_none(WDFREQUEST request) {
    (void)request;
    WdfTimerStart((WDFTIMER)(void *)&timer, 0);
}
static void use_other_kind(WDFREQUEST request) {
    (void)request;
    WdfSpinLockAcquire((WDFSPINLOCK)(void *)timer);
}
static void delete_none(WDFREQUEST request) {
    (void)request;
    WdfObjectDelete(&timer);
}
static void delete_request(WDFREQUEST request) { WdfObjectDelete(request); }
static void complete_none(WDFREQUEST request) {
    (void)request;
    WdfRequestComplete((WDFREQUEST)(void *)timer, STATUS_SUCCESS);
}
static void create_driver_again(WDFREQUEST request) {
    WDF_DRIVER_CONFIG config;
    (void)request;
    WDF_DRIVER_CONFIG_INIT(&config, NULL);
    WdfDriverCreate(NULL, NULL, NULL, &config, NULL);
}

/* ---- Requests ---- */
static void complete_twice(WDFREQUEST request) {
    WdfRequestComplete(request, STATUS_SUCCESS);
    WdfRequestComplete(request, STATUS_SUCCESS);
}
static void reference_late(WDFREQUEST request) {
    WdfRequestComplete(request, STATUS_SUCCESS);
    WdfObjectReference(request);
}
static void dereference(WDFREQUEST request) {
    WdfObjectReference(request);
    WdfObjectDereference(request);
    WdfObjectDereference(request);
}
static void mark_completed(WDFREQUEST request) {
    WdfRequestComplete(request, STATUS_SUCCESS);
    WdfRequestMarkCancelableEx(request, EvtRequestCancel);
}
static void mark_queued(WDFREQUEST request) {
    WdfRequestForwardToIoQueue(request, manual);
    WdfRequestMarkCancelable(request, EvtRequestCancel);
}
static void mark_twice(WDFREQUEST request) {
    WdfRequestMarkCancelableEx(request, EvtRequestCancel);
    WdfRequestMarkCancelableEx(request, EvtRequestCancel);
}
static void complete_marked(WDFREQUEST request) {
    WdfRequestMarkCancelableEx(request, EvtRequestCancel);
    WdfRequestCompleteWithInformation(request, STATUS_SUCCESS, 0);
}
static void forward_marked(WDFREQUEST request) {
    WdfRequestMarkCancelableEx(request, EvtRequestCancel);
    WdfRequestForwardToIoQueue(request, manual);
}
static void requeue_marked(WDFREQUEST request) {
    WdfRequestForwardToIoQueue(request, manual);
    WdfIoQueueRetrieveNextRequest(manual, &request);
    WdfRequestMarkCancelableEx(request, EvtRequestCancel);
    WdfRequestRequeue(request);
}
static void unmark(WDFREQUEST request) { WdfRequestUnmarkCancelable(request); }
static void unmark_twice(WDFREQUEST request) {
    WdfRequestMarkCancelableEx(request, EvtRequestCancel);
    WdfRequestUnmarkCancelable(request);
    WdfRequestUnmarkCancelable(request);
}
static void unmark_completed(WDFREQUEST request) {
    WdfRequestComplete(request, STATUS_SUCCESS);
    WdfRequestUnmarkCancelable(request);
}
static void unmark_found(WDFREQUEST request) {
    IoCancelIrp(WdfRequestWdmGetIrp(request));
    WdfRequestMarkCancelableEx(request, EvtRequestCancel);
    WdfRequestUnmarkCancelable(request);
}
static void acknowledge(WDFREQUEST request) { WdfRequestStopAcknowledge(request, FALSE); }
static VOID EvtDeviceFileCreate(WDFDEVICE of, WDFREQUEST request, WDFFILEOBJECT file) {
    (void)of, (void)file;
    if (misuse == NULL) {
        WdfRequestMarkCancelableEx(request, EvtRequestCancel);
    }
    WdfRequestComplete(request, STATUS_SUCCESS);
}

/* ---- Spin locks, IRQL, waits ---- */
static WDFSPINLOCK lock;
static void release_unowned(WDFREQUEST request) {
    (void)request;
    WdfSpinLockCreate(NULL, &lock);
    WdfSpinLockRelease(lock);
}
static void keep_lock(WDFREQUEST request) {
    (void)request;
    WdfSpinLockCreate(NULL, &lock);
    WdfSpinLockAcquire(lock);
}
static void keep_irql(WDFREQUEST request) {
    (void)request;
    KeRaiseIrqlToDpcLevel();
}
static void use_deleted_lock(WDFREQUEST request) {
    (void)request;
    WdfSpinLockCreate(NULL, &lock);
    WdfObjectDelete(lock);
    WdfSpinLockAcquire(lock);
}
static void complete_with_lock(WDFREQUEST request) {
    keep_lock(request);
    WdfRequestComplete(request, STATUS_SUCCESS);
}
static void stop_and_wait(WDFREQUEST request) {
    keep_lock(request);
    WdfTimerStop(timer, TRUE);
}

/* ---- The driver ---- */
static VOID EvtIoDefault(WDFQUEUE queue, WDFREQUEST request) {
    (void)queue;
    misuse(request);
}
static VOID EvtTimerFunc(WDFTIMER of) { (void)of; }
static NTSTATUS add(WDFDRIVER driver, PWDFDEVICE_INIT init) {
    WDF_FILEOBJECT_CONFIG files;
    WDF_IO_QUEUE_CONFIG config;
    WDF_TIMER_CONFIG once;
    WDF_OBJECT_ATTRIBUTES attributes;
    (void)driver;
    WDF_FILEOBJECT_CONFIG_INIT(&files, EvtDeviceFileCreate, NULL, NULL);
    WdfDeviceInitSetFileObjectConfig(init, &files, NULL);
    WdfDeviceCreate(&init, NULL, &device);
    WDF_IO_QUEUE_CONFIG_INIT(&config, WdfIoQueueDispatchManual);
    WdfIoQueueCreate(device, &config, NULL, &manual);
    WDF_IO_QUEUE_CONFIG_INIT_DEFAULT_QUEUE(&config, WdfIoQueueDispatchParallel);
    config.EvtIoDefault = EvtIoDefault;
    WdfIoQueueCreate(device, &config, NULL, NULL);
    WDF_OBJECT_ATTRIBUTES_INIT(&attributes);
    attributes.ParentObject = device;
    WDF_TIMER_CONFIG_INIT(&once, EvtTimerFunc);
    return WdfTimerCreate(&once, &attributes, &timer);
}
static NTSTATUS NTAPI entry(PDRIVER_OBJECT driver, PUNICODE_STRING path) {
    WDF_DRIVER_CONFIG config;
    WDF_DRIVER_CONFIG_INIT(&config, add);
    return WdfDriverCreate(driver, path, NULL, &config, NULL);
}

static const struct {
    void (*make)(WDFREQUEST request); /* null: as the file object is opened */
    const char *report;
} misuses[] = {
    MISUSE(use_none, "WdfTimerStart with a handle that is no WDFTIMER, or that was deleted"),
    MISUSE(use_other_kind, "WdfSpinLockAcquire with a handle that is no WDFSPINLOCK, or"),
    MISUSE(delete_none, "WdfObjectDelete of a handle that is no object, or that was deleted"),
    MISUSE(delete_request, "WdfObjectDelete of a WDFREQUEST, which the framework deletes"),
    MISUSE(complete_none, "which is no WDFREQUEST"),
    MISUSE(create_driver_again, "WdfDriverCreate a second time"),
    MISUSE(complete_twice, "WdfRequestComplete of irp 0, which was completed before"),
    MISUSE(reference_late, "WdfObjectReference of irp 0, which was completed"),
    MISUSE(dereference, "WdfObjectDereference of a WDFREQUEST, more often than it was"),
    MISUSE(mark_completed, "WdfRequestMarkCancelableEx of irp 0, which was completed before"),
    MISUSE(mark_queued, "WdfRequestMarkCancelable of irp 0, which is on a queue: the driver"),
    MISUSE(mark_twice, "WdfRequestMarkCancelableEx of irp 0, which is marked cancelable already"),
    MISUSE(complete_marked, "of irp 0, which is marked cancelable: WdfRequestUnmarkCancelable"),
    MISUSE(forward_marked, "WdfRequestForwardToIoQueue of irp 0, which is marked cancelable: Wdf"),
    MISUSE(requeue_marked, "WdfRequestRequeue of irp 0, which is marked cancelable: Wdf"),
    MISUSE(unmark, "WdfRequestUnmarkCancelable of irp 0, which isn't marked cancelable"),
    MISUSE(unmark_twice, "WdfRequestUnmarkCancelable of irp 0, which isn't marked cancelable"),
    MISUSE(unmark_completed, "WdfRequestUnmarkCancelable of irp 0, which was completed"),
    MISUSE(unmark_found, "which isn't marked cancelable: WdfRequestMarkCancelableEx returned"),
    MISUSE(acknowledge, "WdfRequestStopAcknowledge of irp 0, which EvtIoStop never got"),
    MISUSE(NULL, "WdfRequestMarkCancelableEx of irp 0, which came from no queue"),
    MISUSE(release_unowned, "WdfSpinLockRelease of a spin lock that this thread doesn't have"),
    MISUSE(keep_lock, "EvtIoDefault returns with a lock that it took"),
    MISUSE(keep_irql, "EvtIoDefault returns at IRQL 2, and was called at 0"),
    MISUSE(use_deleted_lock, "WdfSpinLockAcquire with a handle that is no WDFSPINLOCK, or that"),
    MISUSE(complete_with_lock, "IoCompleteRequest of irp 0 with a spin lock held"),
    MISUSE(stop_and_wait, "WdfTimerStop that waits at DISPATCH_LEVEL"),
};

int main(int argc, char **argv) {
    size_t number = choose(argc, argv, ARRAYSIZE(misuses));
    announce(misuses[number].report);
    misuse = misuses[number].make;
    PFILE_OBJECT file = IocsqOpen(IocsqLoad(entry));
    IocsqSend(file, IRP_MJ_WRITE, "1", 1);
    return 0;
}
