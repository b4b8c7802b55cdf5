/* One read waits at a time, marked cancelable under a spin lock, and others are refused. A write
 * completes it. */
#include "device.h"

typedef struct _DEVICE_CONTEXT {
    WDFSPINLOCK Lock;
    WDFREQUEST Current; /* under Lock: the read that waits, or null */
} DEVICE_CONTEXT, *PDEVICE_CONTEXT;
WDF_DECLARE_CONTEXT_TYPE_WITH_NAME(DEVICE_CONTEXT, GetDeviceContext)

static EVT_WDF_IO_QUEUE_IO_READ EvtIoRead;
static EVT_WDF_IO_QUEUE_IO_WRITE EvtIoWrite;
static EVT_WDF_REQUEST_CANCEL EvtReadCancel;
static EVT_WDF_FILE_CLEANUP EvtFileCleanup;

static VOID EvtReadCancel(WDFREQUEST Request) {
    PDEVICE_CONTEXT Context =
        GetDeviceContext(WdfIoQueueGetDevice(WdfRequestGetIoQueue(Request)));
    WdfSpinLockAcquire(Context->Lock);
    if (Context->Current == Request && WRONG != 4) {
        Context->Current = NULL;
    }
#if WRONG == 5
    WdfRequestComplete(Request, STATUS_CANCELLED);
#endif
    WdfSpinLockRelease(Context->Lock);
#if WRONG != 5 && WRONG != 8
    WdfRequestComplete(Request, STATUS_CANCELLED);
#endif
}

/* The lock is held. STATUS_SUCCESS: the read waits. */
static NTSTATUS Fill(PDEVICE_CONTEXT Context, WDFREQUEST Request) {
    NTSTATUS Status;
    if (Context->Current != NULL) {
        return STATUS_DEVICE_BUSY;
    }
    Context->Current = Request;
#if WRONG == 7
    WdfRequestMarkCancelable(Request, EvtReadCancel); /* which may call it, and it takes the lock */
    Status = STATUS_SUCCESS;
#else
    Status = WdfRequestMarkCancelableEx(Request, EvtReadCancel);
#endif
    if (!NT_SUCCESS(Status) && WRONG != 1) {
        Context->Current = NULL;
    }
    return WRONG == 1 ? STATUS_SUCCESS : Status;
}

static VOID EvtIoRead(WDFQUEUE Queue, WDFREQUEST Request, size_t Length) {
    PDEVICE_CONTEXT Context = GetDeviceContext(WdfIoQueueGetDevice(Queue));
    NTSTATUS Status;
    UNREFERENCED_PARAMETER(Length);
    WdfSpinLockAcquire(Context->Lock);
    Status = Fill(Context, Request);
#if WRONG == 9
    if (Status == STATUS_CANCELLED) {
        return; /* with the lock */
    }
#endif
    WdfSpinLockRelease(Context->Lock);
    if (!NT_SUCCESS(Status)) {
        WdfRequestComplete(Request, Status);
    }
}

/* The read that waits, if no cancel has it, and it is of this file object or File is null. */
static WDFREQUEST Empty(PDEVICE_CONTEXT Context, WDFFILEOBJECT File) {
    WDFREQUEST Request;
    WdfSpinLockAcquire(Context->Lock);
    Request = Context->Current;
    if (Request != NULL && File != NULL && WdfRequestGetFileObject(Request) != File) {
        Request = NULL;
    }
    if (Request != NULL) {
        Context->Current = NULL;
#if WRONG == 2
        WdfRequestUnmarkCancelable(Request);
#elif WRONG != 3
        if (WdfRequestUnmarkCancelable(Request) == STATUS_CANCELLED) {
            Request = NULL; /* EvtReadCancel completes it */
        }
#endif
    }
    WdfSpinLockRelease(Context->Lock);
    return Request;
}

static VOID EvtIoWrite(WDFQUEUE Queue, WDFREQUEST Request, size_t Length) {
    WDFREQUEST Read = Empty(GetDeviceContext(WdfIoQueueGetDevice(Queue)), NULL);
    if (Read != NULL) {
        WdfRequestComplete(Read, STATUS_SUCCESS);
    }
    WdfRequestCompleteWithInformation(Request, STATUS_SUCCESS, Length);
}

static VOID EvtFileCleanup(WDFFILEOBJECT FileObject) {
    WDFREQUEST Read = Empty(GetDeviceContext(WdfFileObjectGetDevice(FileObject)), FileObject);
    if (Read != NULL) {
        WdfRequestComplete(Read, STATUS_CANCELLED);
    }
}

static NTSTATUS EvtDriverDeviceAdd(WDFDRIVER Driver, PWDFDEVICE_INIT DeviceInit) {
    WDF_FILEOBJECT_CONFIG Files;
    WDF_OBJECT_ATTRIBUTES Attributes;
    WDFDEVICE Device;
    NTSTATUS Status;
    UNREFERENCED_PARAMETER(Driver);
    WDF_FILEOBJECT_CONFIG_INIT(&Files, WDF_NO_EVENT_CALLBACK, WDF_NO_EVENT_CALLBACK,
                               WRONG == 6 ? WDF_NO_EVENT_CALLBACK : EvtFileCleanup);
    WdfDeviceInitSetFileObjectConfig(DeviceInit, &Files, WDF_NO_OBJECT_ATTRIBUTES);
    WDF_OBJECT_ATTRIBUTES_INIT_CONTEXT_TYPE(&Attributes, DEVICE_CONTEXT);
    Status = WdfDeviceCreate(&DeviceInit, &Attributes, &Device);
    if (NT_SUCCESS(Status)) {
        Attributes = ChildOf(Device);
        Status = WdfSpinLockCreate(&Attributes, &GetDeviceContext(Device)->Lock);
    }
    return NT_SUCCESS(Status) ? MakeDefaultQueue(Device, WdfIoQueueDispatchParallel, EvtIoRead,
                                                 EvtIoWrite, WDF_NO_EVENT_CALLBACK)
                              : Status;
}
