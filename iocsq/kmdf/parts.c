/* Three queues: reads wait on a manual one; a sequential one has the writes, each of which gives
 * its bytes to the oldest read; what else comes is the default one's. Few file objects are open at
 * a time, and the device has a timer that a control starts. */
#include "device.h"

enum { MOST_FILES = 12 };

typedef struct _DEVICE_CONTEXT {
    WDFQUEUE Reads;
    WDFTIMER Timer;
    LONG Files; /* with the next, exchanged */
    LONG On;
} DEVICE_CONTEXT, *PDEVICE_CONTEXT;
WDF_DECLARE_CONTEXT_TYPE_WITH_NAME(DEVICE_CONTEXT, GetDeviceContext)

static EVT_WDF_IO_QUEUE_IO_DEFAULT EvtIoDefault;
static EVT_WDF_IO_QUEUE_IO_WRITE EvtIoWrite;
static EVT_WDF_TIMER EvtTimerFunc;
static EVT_WDF_DEVICE_FILE_CREATE EvtDeviceFileCreate;
static EVT_WDF_FILE_CLOSE EvtFileClose;
static EVT_WDF_FILE_CLEANUP EvtFileCleanup;
static EVT_WDF_DEVICE_D0_ENTRY EvtDeviceD0Entry;
static EVT_WDF_DEVICE_D0_EXIT EvtDeviceD0Exit;

/* ---- File objects ---- */
static VOID EvtDeviceFileCreate(WDFDEVICE Device, WDFREQUEST Request, WDFFILEOBJECT FileObject) {
    BOOLEAN Fits = InterlockedIncrement(&GetDeviceContext(Device)->Files) <= MOST_FILES;
    ASSERT(WdfRequestGetFileObject(Request) == FileObject);
    if (!Fits) {
        InterlockedDecrement(&GetDeviceContext(Device)->Files);
    }
    WdfRequestComplete(Request, Fits ? STATUS_SUCCESS : STATUS_DEVICE_BUSY);
}

static VOID EvtFileClose(WDFFILEOBJECT FileObject) {
    InterlockedDecrement(&GetDeviceContext(WdfFileObjectGetDevice(FileObject))->Files);
}

static VOID EvtFileCleanup(WDFFILEOBJECT FileObject) {
    PDEVICE_CONTEXT Context = GetDeviceContext(WdfFileObjectGetDevice(FileObject));
    WDFREQUEST Read;
    while (NT_SUCCESS(WdfIoQueueRetrieveRequestByFileObject(Context->Reads, FileObject, &Read))) {
        ASSERT(WdfRequestGetFileObject(Read) == FileObject);
        WdfRequestComplete(Read, STATUS_CANCELLED);
    }
}

/* ---- Requests ---- */
/* As many bytes as both have. */
static VOID Give(WDFREQUEST Read, WDFREQUEST Write) {
    PVOID From, To;
    size_t Bytes = 0, Room = 0;
    NTSTATUS Status = WdfRequestRetrieveInputBuffer(Write, 1, &From, &Bytes);
    if (NT_SUCCESS(Status)) {
        Status = WdfRequestRetrieveOutputBuffer(Read, 1, &To, &Room);
    }
    if (NT_SUCCESS(Status)) {
        Bytes = Bytes < Room ? Bytes : Room;
        RtlCopyMemory(To, From, Bytes);
    }
    WdfRequestCompleteWithInformation(Read, Status, NT_SUCCESS(Status) ? Bytes : 0);
}

static VOID EvtIoWrite(WDFQUEUE Queue, WDFREQUEST Request, size_t Length) {
    PDEVICE_CONTEXT Context = GetDeviceContext(WdfIoQueueGetDevice(Queue));
    WDFREQUEST Read;
    ASSERT(WdfRequestGetIoQueue(Request) == Queue);
    if (NT_SUCCESS(WdfIoQueueRetrieveNextRequest(Context->Reads, &Read))) {
        Give(Read, Request);
    }
    WdfRequestCompleteWithInformation(Request, STATUS_SUCCESS, Length);
}

/* The oldest read is looked at, and stays the oldest. */
static VOID LookAtOldest(PDEVICE_CONTEXT Context) {
    WDFREQUEST Read;
    if (!NT_SUCCESS(WdfIoQueueRetrieveNextRequest(Context->Reads, &Read))) {
        return;
    }
#if WRONG == 1
    return; /* and is forgotten */
#endif
    if (WdfRequestIsCanceled(Read)) {
        WdfRequestComplete(Read, STATUS_CANCELLED);
    } else if (!NT_SUCCESS(WdfRequestRequeue(Read))) {
        WdfRequestComplete(Read, STATUS_DEVICE_BUSY);
    }
}

static VOID EvtIoDefault(WDFQUEUE Queue, WDFREQUEST Request) {
    PDEVICE_CONTEXT Context = GetDeviceContext(WdfIoQueueGetDevice(Queue));
    WDF_REQUEST_PARAMETERS Parameters;
    PUCHAR Output;
    NTSTATUS Status;
    WDF_REQUEST_PARAMETERS_INIT(&Parameters);
    WdfRequestGetParameters(Request, &Parameters);
    ASSERT(Parameters.Type == WdfRequestTypeDeviceControl && ReadAcquire(&Context->On));
    LookAtOldest(Context);
    WdfTimerStart(Context->Timer, WDF_REL_TIMEOUT_IN_US(100));
    Status = WdfRequestRetrieveOutputBuffer(Request, 1, (PVOID *)&Output, NULL);
    if (NT_SUCCESS(Status)) {
        *Output = (UCHAR)Parameters.Parameters.DeviceIoControl.InputBufferLength;
        WdfRequestSetInformation(Request, 1);
    }
    WdfRequestComplete(Request, Status);
}

static VOID EvtTimerFunc(WDFTIMER Timer) {
    PDEVICE_CONTEXT Context = GetDeviceContext(WdfTimerGetParentObject(Timer));
    ASSERT(ReadAcquire(&Context->On));
    LookAtOldest(Context);
}

/* ---- The device ---- */
static NTSTATUS EvtDeviceD0Entry(WDFDEVICE Device, WDF_POWER_DEVICE_STATE PreviousState) {
    UNREFERENCED_PARAMETER(PreviousState);
    WriteRelease(&GetDeviceContext(Device)->On, 1);
    return STATUS_SUCCESS;
}

static NTSTATUS EvtDeviceD0Exit(WDFDEVICE Device, WDF_POWER_DEVICE_STATE TargetState) {
    UNREFERENCED_PARAMETER(TargetState);
    WdfTimerStop(GetDeviceContext(Device)->Timer, WRONG != 2);
    WriteRelease(&GetDeviceContext(Device)->On, 0);
    return STATUS_SUCCESS;
}

static NTSTATUS MakeTimer(WDFDEVICE Device) {
    WDF_OBJECT_ATTRIBUTES Attributes = ChildOf(Device);
    WDF_TIMER_CONFIG Config;
    WDF_TIMER_CONFIG_INIT(&Config, EvtTimerFunc);
    return WdfTimerCreate(&Config, &Attributes, &GetDeviceContext(Device)->Timer);
}

static NTSTATUS MakeQueues(WDFDEVICE Device) {
    PDEVICE_CONTEXT Context = GetDeviceContext(Device);
    WDF_IO_QUEUE_CONFIG Config;
    WDFQUEUE Writes;
    NTSTATUS Status;
    WDF_IO_QUEUE_CONFIG_INIT(&Config, WdfIoQueueDispatchManual);
    Status = WdfIoQueueCreate(Device, &Config, WDF_NO_OBJECT_ATTRIBUTES, &Context->Reads);
    if (NT_SUCCESS(Status)) {
        WDF_IO_QUEUE_CONFIG_INIT(&Config, WdfIoQueueDispatchSequential);
        Config.EvtIoWrite = EvtIoWrite;
        Status = WdfIoQueueCreate(Device, &Config, WDF_NO_OBJECT_ATTRIBUTES, &Writes);
    }
    if (NT_SUCCESS(Status)) {
        Status = MakeDefaultQueue(Device, WdfIoQueueDispatchParallel, WDF_NO_EVENT_CALLBACK,
                                  WDF_NO_EVENT_CALLBACK, EvtIoDefault);
    }
    if (NT_SUCCESS(Status)) {
        WdfDeviceConfigureRequestDispatching(Device, Context->Reads, WdfRequestTypeRead);
        WdfDeviceConfigureRequestDispatching(Device, Writes, WdfRequestTypeWrite);
    }
    return Status;
}

static NTSTATUS EvtDriverDeviceAdd(WDFDRIVER Driver, PWDFDEVICE_INIT DeviceInit) {
    WDF_PNPPOWER_EVENT_CALLBACKS Callbacks;
    WDF_FILEOBJECT_CONFIG Files;
    WDF_OBJECT_ATTRIBUTES Attributes;
    WDFDEVICE Device;
    NTSTATUS Status;
    UNREFERENCED_PARAMETER(Driver);
    WDF_PNPPOWER_EVENT_CALLBACKS_INIT(&Callbacks);
    Callbacks.EvtDeviceD0Entry = EvtDeviceD0Entry;
    Callbacks.EvtDeviceD0Exit = EvtDeviceD0Exit;
    WdfDeviceInitSetPnpPowerEventCallbacks(DeviceInit, &Callbacks);
    WDF_FILEOBJECT_CONFIG_INIT(&Files, EvtDeviceFileCreate, EvtFileClose, EvtFileCleanup);
    WdfDeviceInitSetFileObjectConfig(DeviceInit, &Files, WDF_NO_OBJECT_ATTRIBUTES);
    WDF_OBJECT_ATTRIBUTES_INIT_CONTEXT_TYPE(&Attributes, DEVICE_CONTEXT);
    Status = WdfDeviceCreate(&DeviceInit, &Attributes, &Device);
    if (NT_SUCCESS(Status)) {
        Status = MakeTimer(Device);
    }
    return NT_SUCCESS(Status) ? MakeQueues(Device) : Status;
}
