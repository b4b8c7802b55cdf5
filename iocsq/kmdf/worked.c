/* A sequential queue: each read and write is the device's alone, marked cancelable, until a work
 * item completes it. */
#include "device.h"

typedef struct _DEVICE_CONTEXT {
    WDFSPINLOCK Lock;
    WDFREQUEST Current; /* under Lock: the request, if no cancel has it, or null */
    WDFWORKITEM Item;
} DEVICE_CONTEXT, *PDEVICE_CONTEXT;
WDF_DECLARE_CONTEXT_TYPE_WITH_NAME(DEVICE_CONTEXT, GetDeviceContext)

static EVT_WDF_IO_QUEUE_IO_DEFAULT EvtIoDefault;
static EVT_WDF_REQUEST_CANCEL EvtRequestCancel;
static EVT_WDF_WORKITEM EvtWorkItemFunc;

static VOID EvtRequestCancel(WDFREQUEST Request) {
    PDEVICE_CONTEXT Context =
        GetDeviceContext(WdfIoQueueGetDevice(WdfRequestGetIoQueue(Request)));
#if WRONG != 1
    WdfSpinLockAcquire(Context->Lock);
    Context->Current = NULL;
    WdfSpinLockRelease(Context->Lock);
#else
    Context->Current = NULL; /* without the lock */
#endif
    WdfRequestComplete(Request, STATUS_CANCELLED);
}

static VOID EvtIoDefault(WDFQUEUE Queue, WDFREQUEST Request) {
    PDEVICE_CONTEXT Context = GetDeviceContext(WdfIoQueueGetDevice(Queue));
    NTSTATUS Status;
    WdfSpinLockAcquire(Context->Lock);
    Status = WdfRequestMarkCancelableEx(Request, EvtRequestCancel);
    Context->Current = NT_SUCCESS(Status) ? Request : NULL;
    WdfSpinLockRelease(Context->Lock);
    if (NT_SUCCESS(Status)) {
        WdfWorkItemEnqueue(Context->Item);
    }
#if WRONG != 2
    if (!NT_SUCCESS(Status)) {
        WdfRequestComplete(Request, Status);
    }
#endif
}

static VOID EvtWorkItemFunc(WDFWORKITEM WorkItem) {
    PDEVICE_CONTEXT Context = GetDeviceContext(WdfWorkItemGetParentObject(WorkItem));
    WDFREQUEST Request;
    WdfSpinLockAcquire(Context->Lock);
    Request = Context->Current;
    Context->Current = NULL;
#if WRONG == 1 || WRONG == 3
    WdfSpinLockRelease(Context->Lock); /* the cancel may complete the request now */
#endif
    if (Request != NULL && WRONG != 4 && WdfRequestUnmarkCancelable(Request) == STATUS_CANCELLED) {
        Request = NULL; /* EvtRequestCancel completes it */
    }
#if WRONG != 1 && WRONG != 3 && WRONG != 5
    WdfSpinLockRelease(Context->Lock);
#endif
    if (Request != NULL) {
        WdfRequestComplete(Request, STATUS_SUCCESS);
    }
}

static NTSTATUS MakeItem(WDFDEVICE Device) {
    WDF_OBJECT_ATTRIBUTES Attributes = ChildOf(Device);
    WDF_WORKITEM_CONFIG Config;
    WDF_WORKITEM_CONFIG_INIT(&Config, EvtWorkItemFunc);
    return WdfWorkItemCreate(&Config, &Attributes, &GetDeviceContext(Device)->Item);
}

static NTSTATUS EvtDriverDeviceAdd(WDFDRIVER Driver, PWDFDEVICE_INIT DeviceInit) {
    WDF_OBJECT_ATTRIBUTES Attributes;
    WDFDEVICE Device;
    NTSTATUS Status;
    UNREFERENCED_PARAMETER(Driver);
    WDF_OBJECT_ATTRIBUTES_INIT_CONTEXT_TYPE(&Attributes, DEVICE_CONTEXT);
    Status = WdfDeviceCreate(&DeviceInit, &Attributes, &Device);
    if (NT_SUCCESS(Status)) {
        Attributes = ChildOf(Device);
        Status = WdfSpinLockCreate(&Attributes, &GetDeviceContext(Device)->Lock);
    }
    if (NT_SUCCESS(Status)) {
        Status = MakeItem(Device);
    }
    return NT_SUCCESS(Status)
               ? MakeDefaultQueue(Device, WdfIoQueueDispatchSequential, WDF_NO_EVENT_CALLBACK,
                                  WDF_NO_EVENT_CALLBACK, EvtIoDefault)
               : Status;
}
