/* Reads wait on a manual queue until a timer completes the oldest one. A write is completed at
 * once. */
#include "device.h"

typedef struct _DEVICE_CONTEXT {
    WDFQUEUE Reads;
    WDFTIMER Timer; /* set while there are some, unless it just runs */
} DEVICE_CONTEXT, *PDEVICE_CONTEXT;
WDF_DECLARE_CONTEXT_TYPE_WITH_NAME(DEVICE_CONTEXT, GetDeviceContext)

static EVT_WDF_IO_QUEUE_IO_READ EvtIoRead;
static EVT_WDF_IO_QUEUE_IO_WRITE EvtIoWrite;
static EVT_WDF_IO_QUEUE_IO_CANCELED_ON_QUEUE EvtIoCanceledOnQueue;
static EVT_WDF_TIMER EvtTimerFunc;
#if WRONG == 1
static EVT_WDF_REQUEST_CANCEL EvtReadCancel;

static VOID EvtReadCancel(WDFREQUEST Request) {
    WdfRequestComplete(Request, STATUS_CANCELLED);
}
#endif

static VOID StartTimer(PDEVICE_CONTEXT Context) {
    WdfTimerStart(Context->Timer, WDF_REL_TIMEOUT_IN_US(200));
}

static VOID EvtIoRead(WDFQUEUE Queue, WDFREQUEST Request, size_t Length) {
    PDEVICE_CONTEXT Context = GetDeviceContext(WdfIoQueueGetDevice(Queue));
    NTSTATUS Status;
    UNREFERENCED_PARAMETER(Length);
#if WRONG == 1
    WdfRequestMarkCancelable(Request, EvtReadCancel);
#endif
    Status = WdfRequestForwardToIoQueue(Request, Context->Reads);
#if WRONG == 2
    WdfRequestSetInformation(Request, Length); /* the queue has it */
#endif
    if (!NT_SUCCESS(Status)) {
        WdfRequestComplete(Request, Status);
    } else {
        StartTimer(Context);
    }
}

static VOID EvtIoWrite(WDFQUEUE Queue, WDFREQUEST Request, size_t Length) {
    UNREFERENCED_PARAMETER(Queue);
    WdfRequestCompleteWithInformation(Request, STATUS_SUCCESS, Length);
#if WRONG == 6
    WdfRequestSetInformation(Request, Length);
#endif
}

/* A read that was canceled while it waited. */
static VOID EvtIoCanceledOnQueue(WDFQUEUE Queue, WDFREQUEST Request) {
    UNREFERENCED_PARAMETER(Queue);
    UNREFERENCED_PARAMETER(Request);
#if WRONG != 3
    WdfRequestComplete(Request, STATUS_CANCELLED);
#endif
}

static VOID EvtTimerFunc(WDFTIMER Timer) {
    PDEVICE_CONTEXT Context = GetDeviceContext(WdfTimerGetParentObject(Timer));
    WDFREQUEST Request;
    if (NT_SUCCESS(WdfIoQueueRetrieveNextRequest(Context->Reads, &Request))) {
        WdfRequestComplete(Request, STATUS_SUCCESS);
#if WRONG == 4
        WdfRequestComplete(Request, STATUS_SUCCESS);
#endif
#if WRONG != 5
        StartTimer(Context); /* there may be more */
#endif
    }
}

static NTSTATUS MakeQueues(WDFDEVICE Device) {
    WDF_IO_QUEUE_CONFIG Config;
    NTSTATUS Status;
    WDF_IO_QUEUE_CONFIG_INIT(&Config, WdfIoQueueDispatchManual);
    Config.EvtIoCanceledOnQueue = EvtIoCanceledOnQueue;
    Status = WdfIoQueueCreate(Device, &Config, WDF_NO_OBJECT_ATTRIBUTES,
                              &GetDeviceContext(Device)->Reads);
    return NT_SUCCESS(Status) ? MakeDefaultQueue(Device, WdfIoQueueDispatchParallel, EvtIoRead,
                                                 EvtIoWrite, WDF_NO_EVENT_CALLBACK)
                              : Status;
}

static NTSTATUS EvtDriverDeviceAdd(WDFDRIVER Driver, PWDFDEVICE_INIT DeviceInit) {
    WDF_OBJECT_ATTRIBUTES Attributes;
    WDF_TIMER_CONFIG Config;
    WDFDEVICE Device;
    NTSTATUS Status;
    UNREFERENCED_PARAMETER(Driver);
    WDF_OBJECT_ATTRIBUTES_INIT_CONTEXT_TYPE(&Attributes, DEVICE_CONTEXT);
    Status = WdfDeviceCreate(&DeviceInit, &Attributes, &Device);
    if (NT_SUCCESS(Status)) {
        WDF_TIMER_CONFIG_INIT(&Config, EvtTimerFunc);
        Attributes = ChildOf(Device);
        Status = WdfTimerCreate(&Config, &Attributes, &GetDeviceContext(Device)->Timer);
    }
    return NT_SUCCESS(Status) ? MakeQueues(Device) : Status;
}
