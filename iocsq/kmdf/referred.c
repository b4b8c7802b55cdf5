/* One read waits at a time, with no lock: it is marked by the older call, which may call
 * EvtReadCancel itself. A reference to it, and one to its file object, keep their handles until the
 * thread that has exchanged Current drops both. A write has a DPC complete the read. */
#include "device.h"

typedef struct _DEVICE_CONTEXT {
    WDFREQUEST Current; /* exchanged: the read that waits, or did, with a reference; or null */
    WDFDPC Dpc;
} DEVICE_CONTEXT, *PDEVICE_CONTEXT;
WDF_DECLARE_CONTEXT_TYPE_WITH_NAME(DEVICE_CONTEXT, GetDeviceContext)

typedef struct _REQUEST_CONTEXT {
    PDEVICE_CONTEXT Device;
    WDFFILEOBJECT File;
} REQUEST_CONTEXT, *PREQUEST_CONTEXT;
WDF_DECLARE_CONTEXT_TYPE_WITH_NAME(REQUEST_CONTEXT, GetRequestContext)

typedef struct _FILE_CONTEXT {
    LONG Closed; /* exchanged: its cleanup has begun */
} FILE_CONTEXT, *PFILE_CONTEXT;
WDF_DECLARE_CONTEXT_TYPE_WITH_NAME(FILE_CONTEXT, GetFileContext)

static EVT_WDF_IO_QUEUE_IO_READ EvtIoRead;
static EVT_WDF_IO_QUEUE_IO_WRITE EvtIoWrite;
static EVT_WDF_REQUEST_CANCEL EvtReadCancel;
static EVT_WDF_DPC EvtDpcFunc;
static EVT_WDF_FILE_CLEANUP EvtFileCleanup;
static EVT_WDF_OBJECT_CONTEXT_CLEANUP EvtDeviceCleanup, EvtRequestCleanup;

/* Its handle is good also if EvtReadCancel has completed it. */
static VOID Finish(WDFREQUEST Request, NTSTATUS Status) {
    WDFFILEOBJECT File = GetRequestContext(Request)->File;
#if WRONG == 1
    WdfObjectDereference(Request);
#endif
    if (WdfRequestUnmarkCancelable(Request) != STATUS_CANCELLED) {
        WdfRequestComplete(Request, Status);
    }
#if WRONG != 1 && WRONG != 2
    WdfObjectDereference(Request);
#endif
    WdfObjectDereference(File);
}

/* Current, if it is this one, is no more. */
static BOOLEAN Forget(PDEVICE_CONTEXT Context, WDFREQUEST Request) {
    return InterlockedCompareExchangePointer(&Context->Current, NULL, Request) == Request;
}

static VOID EvtReadCancel(WDFREQUEST Request) {
    BOOLEAN Forgotten = Forget(GetRequestContext(Request)->Device, Request);
    WDFFILEOBJECT File = GetRequestContext(Request)->File;
    WdfRequestComplete(Request, STATUS_CANCELLED);
    if (Forgotten) {
        WdfObjectDereference(Request);
        WdfObjectDereference(File);
    }
}

/* The read is marked, with its references. Its file object's cleanup may have looked before it
 * stands in Current; once it does, another thread may drop them. */
static VOID Wait(PDEVICE_CONTEXT Context, WDFREQUEST Request) {
    WDFFILEOBJECT File = GetRequestContext(Request)->File;
    WdfObjectReference(File);
    if (InterlockedCompareExchangePointer(&Context->Current, Request, NULL) != NULL) {
        Finish(Request, STATUS_DEVICE_BUSY);
    } else if (ReadAcquire(&GetFileContext(File)->Closed) && Forget(Context, Request)) {
        Finish(Request, STATUS_CANCELLED);
    }
#if WRONG != 4
    WdfObjectDereference(File);
#endif
}

static VOID EvtIoRead(WDFQUEUE Queue, WDFREQUEST Request, size_t Length) {
    PDEVICE_CONTEXT Context = GetDeviceContext(WdfIoQueueGetDevice(Queue));
    WDFFILEOBJECT File = WdfRequestGetFileObject(Request);
    UNREFERENCED_PARAMETER(Length);
    GetRequestContext(Request)->Device = Context;
    GetRequestContext(Request)->File = File;
    WdfObjectReference(File);
#if WRONG != 3
    WdfObjectReference(Request);
#endif
    WdfRequestMarkCancelable(Request, EvtReadCancel);
#if WRONG == 3
    WdfObjectReference(Request); /* EvtReadCancel may have completed it */
#endif
    Wait(Context, Request);
}

static VOID EvtDpcFunc(WDFDPC Dpc) {
    PDEVICE_CONTEXT Context = GetDeviceContext(WdfDpcGetParentObject(Dpc));
    WDFREQUEST Read = InterlockedExchangePointer(&Context->Current, NULL);
    if (Read != NULL) {
        Finish(Read, STATUS_SUCCESS);
    }
}

static VOID EvtIoWrite(WDFQUEUE Queue, WDFREQUEST Request, size_t Length) {
    WdfDpcEnqueue(GetDeviceContext(WdfIoQueueGetDevice(Queue))->Dpc);
    WdfRequestCompleteWithInformation(Request, STATUS_SUCCESS, Length);
}

static VOID EvtFileCleanup(WDFFILEOBJECT FileObject) {
    PDEVICE_CONTEXT Context = GetDeviceContext(WdfFileObjectGetDevice(FileObject));
    WDFREQUEST Read;
    InterlockedExchange(&GetFileContext(FileObject)->Closed, 1);
    Read = InterlockedExchangePointer(&Context->Current, NULL);
    if (Read == NULL) {
        return;
    }
    if (GetRequestContext(Read)->File == FileObject) {
        Finish(Read, STATUS_CANCELLED);
    } else {
        Wait(Context, Read); /* another may wait by now, or its own cleanup have found none */
    }
}

/* Its context is there still; of what isn't a read it is as it was. */
static VOID EvtRequestCleanup(WDFOBJECT Request) {
    PDEVICE_CONTEXT Context = GetRequestContext(Request)->Device;
    ASSERT(Context == NULL || ReadPointerAcquire(&Context->Current) != Request);
}

/* A read that was completed before it stood in Current. */
static VOID EvtDeviceCleanup(WDFOBJECT Device) {
    WDFREQUEST Read = GetDeviceContext(Device)->Current;
    if (Read != NULL) {
        WDFFILEOBJECT File = GetRequestContext(Read)->File;
        WdfObjectDereference(Read);
        WdfObjectDereference(File);
    }
}

static NTSTATUS MakeDpcAndQueue(WDFDEVICE Device) {
    WDF_OBJECT_ATTRIBUTES Attributes = ChildOf(Device);
    WDF_DPC_CONFIG Config;
    NTSTATUS Status;
    WDF_DPC_CONFIG_INIT(&Config, EvtDpcFunc);
    Status = WdfDpcCreate(&Config, &Attributes, &GetDeviceContext(Device)->Dpc);
    return NT_SUCCESS(Status) ? MakeDefaultQueue(Device, WdfIoQueueDispatchParallel, EvtIoRead,
                                                 EvtIoWrite, WDF_NO_EVENT_CALLBACK)
                              : Status;
}

static NTSTATUS EvtDriverDeviceAdd(WDFDRIVER Driver, PWDFDEVICE_INIT DeviceInit) {
    WDF_FILEOBJECT_CONFIG Files;
    WDF_OBJECT_ATTRIBUTES Attributes;
    WDFDEVICE Device;
    NTSTATUS Status;
    UNREFERENCED_PARAMETER(Driver);
    WDF_FILEOBJECT_CONFIG_INIT(&Files, WDF_NO_EVENT_CALLBACK, WDF_NO_EVENT_CALLBACK,
                               EvtFileCleanup);
    WDF_OBJECT_ATTRIBUTES_INIT_CONTEXT_TYPE(&Attributes, FILE_CONTEXT);
    WdfDeviceInitSetFileObjectConfig(DeviceInit, &Files, &Attributes);
    WDF_OBJECT_ATTRIBUTES_INIT_CONTEXT_TYPE(&Attributes, REQUEST_CONTEXT);
    Attributes.EvtCleanupCallback = EvtRequestCleanup;
    WdfDeviceInitSetRequestAttributes(DeviceInit, &Attributes);
    WDF_OBJECT_ATTRIBUTES_INIT_CONTEXT_TYPE(&Attributes, DEVICE_CONTEXT);
    Attributes.EvtCleanupCallback = EvtDeviceCleanup;
    Status = WdfDeviceCreate(&DeviceInit, &Attributes, &Device);
    return NT_SUCCESS(Status) ? MakeDpcAndQueue(Device) : Status;
}
