/* What the files of the framework share: KMDF's objects over the WDM calls of iocsq. A driver
 * reaches iocsq by them as a driver without an IO_CSQ does, so hand.c has the steps of its
 * requests.
 *
 * A handle is the object's address, but for a request: there it is odd, and names the IRP and which
 * of its uses it is, so that a call is recognized that comes after the completion. */
#ifndef IOCSQ_WDFOBJECTS_H
#define IOCSQ_WDFOBJECTS_H
#include "internal.h"
#include "iocsq/wdf.h"

enum iocsq_wdf_kind {
    IOCSQ_WDF_DRIVER,
    IOCSQ_WDF_DEVICE,
    IOCSQ_WDF_QUEUE,
    IOCSQ_WDF_REQUEST,
    IOCSQ_WDF_FILE,
    IOCSQ_WDF_LOCK,
    IOCSQ_WDF_TIMER,
    IOCSQ_WDF_DPC,
    IOCSQ_WDF_ITEM
};

/* ---- wdfobjects.c ---- */
/* Each object begins with one. */
struct iocsq_wdf_object {
    enum iocsq_wdf_kind kind;
    WDF_OBJECT_ATTRIBUTES attributes;
    void *context;                   /* null: it has none */
    struct iocsq_wdf_object *parent; /* null: the driver and requests have none */
    struct iocsq_wdf_object *next;   /* of all but requests: under the state's lock */
    uint32_t held;     /* references of the driver, with the next under the state's lock */
    bool ended;        /* and it is there for them alone */
    _Atomic bool ends; /* it ends, or what it is below of: nothing of it is started any more */
    /* Null, or ends what runs later, and if `waits` returns once nothing of it runs any more. */
    void (*stop)(struct iocsq_wdf_object *object, bool waits);
};

/* An object of so many bytes, with a context as the attributes have it; they may be null. Null: no
 * memory. It ends with the parent of the attributes, or if there is none with `parent`. */
void *iocsq_wdf_make(enum iocsq_wdf_kind kind, size_t size, const WDF_OBJECT_ATTRIBUTES *attributes,
                     void *parent);
/* Ends an object, and before it those of which it is the parent. First nothing of them runs any
 * more, since each may use all others until then. */
void iocsq_wdf_end(struct iocsq_wdf_object *object);
/* The state's lock, for what the framework keeps: it orders all its calls. */
void iocsq_lock_framework(void);
void iocsq_touch_framework(void);
void iocsq_wdf_check_dereferenced(void); /* as the driver is unloaded */
/* The object of a handle, which is to be of this kind; otherwise reports the call. */
void *iocsq_wdf_known(const void *handle, enum iocsq_wdf_kind kind, const char *call);
/* Null: it is below none. */
struct iocsq_wdf_device *iocsq_wdf_device_above(const struct iocsq_wdf_object *object);

/* A callback of the driver's: what this thread had before, and has to have after. */
struct iocsq_wdf_entry {
    uint32_t locks;
    KIRQL irql;
};
struct iocsq_wdf_entry iocsq_wdf_enter(void);
void iocsq_wdf_leave(struct iocsq_wdf_entry entry, const char *callback);

/* ---- wdf.c ---- */
struct iocsq_wdf_device {
    struct iocsq_wdf_object object;
    PDEVICE_OBJECT wdm, lower;
    struct iocsq_wdf_queue *queues;
    struct iocsq_wdf_queue *default_queue;
    struct iocsq_wdf_queue *by_major[IRP_MJ_MAXIMUM_FUNCTION + 1]; /* null: the default one */
    WDF_OBJECT_ATTRIBUTES request_attributes, file_attributes;
    bool has_files; /* it has a WDF_FILEOBJECT_CONFIG */
    WDF_FILEOBJECT_CONFIG files;
    WDF_PNPPOWER_EVENT_CALLBACKS power;
};
struct iocsq_wdf_file {
    struct iocsq_wdf_object object;
    PFILE_OBJECT wdm;
    struct iocsq_wdf_device *device;
};
/* That of a file object; null: its device has no WDF_FILEOBJECT_CONFIG. */
struct iocsq_wdf_file *iocsq_wdf_file_of(const FILE_OBJECT *file);

/* ---- wdfqueues.c ---- */
struct iocsq_wdf_queue {
    struct iocsq_wdf_object object;
    struct iocsq_wdf_device *device;
    struct iocsq_wdf_queue *next; /* of the device */
    WDF_IO_QUEUE_CONFIG config;
    KSPIN_LOCK lock;
    LIST_ENTRY irps; /* with the next two, under the lock */
    ULONG owned;     /* requests of this queue that the driver has */
    bool presents;   /* of a sequential queue: a thread presents its requests, one by one */
};
struct iocsq_wdf_request;
void iocsq_wdf_arrive(struct iocsq_wdf_queue *q, struct iocsq_wdf_request *r);
/* The driver has one request less: the next ones may be presented. */
void iocsq_wdf_go_on(struct iocsq_wdf_queue *q);
/* Cancels those on the device's queues that are of this file object. */
void iocsq_wdf_flush(struct iocsq_wdf_device *device, const FILE_OBJECT *file);

/* ---- wdfrequests.c ---- */
/* Whose a request is: the driver's; a queue's, which completes it if it is cancelled; nobody's,
 * since it was completed. */
enum iocsq_wdf_place { IOCSQ_WDF_OWNED, IOCSQ_WDF_QUEUED, IOCSQ_WDF_DONE };
/* What WdfRequestMarkCancelable[Ex] made of it: the routine is set; a cancel took it; the call
 * itself found the cancel, and returned STATUS_CANCELLED. */
enum iocsq_wdf_mark {
    IOCSQ_WDF_UNMARKED,
    IOCSQ_WDF_MARKED,
    IOCSQ_WDF_TAKEN,
    IOCSQ_WDF_FOUND
};
struct iocsq_wdf_request {
    struct iocsq_wdf_object object;
    struct iocsq_wdf_request *older; /* the same IRP's, with the next under the state's lock */
    uint32_t references;             /* 1 until it is completed, 1 while it is marked, and 1 in a
                                      * call */
    struct iocsq_irp *irp;
    uint32_t use; /* of the IRP */
    struct iocsq_wdf_queue *queue; /* on which it is, or from which the driver has it; null: it
                                    * opens a file object */
    bool presented;    /* to the driver, at some time */
    _Atomic int place; /* with the next, changed under the queue's lock */
    _Atomic int mark;
    PFN_WDF_REQUEST_CANCEL cancel;
    _Atomic uint32_t told; /* the thread that WdfRequestUnmarkCancelable told of a cancel; with the
                            * next, 0: none */
    _Atomic uint32_t by;   /* the thread that completed it */
};
/* One for an IRP that the framework got. Null: no memory. */
struct iocsq_wdf_request *iocsq_wdf_begin(struct iocsq_wdf_device *device, PIRP irp);
struct iocsq_wdf_request *iocsq_wdf_request_of(const struct iocsq_irp *i); /* null: it has none */
WDFREQUEST iocsq_wdf_handle(const struct iocsq_wdf_request *r);
/* Null: it was completed, and the driver has no reference, and `irp` is where it was; of what is no
 * handle of a request reports. */
struct iocsq_wdf_request *iocsq_wdf_find(WDFREQUEST handle, const char *call,
                                         struct iocsq_irp **irp);
/* That the driver may use; otherwise reports the call. */
struct iocsq_wdf_request *iocsq_wdf_owned(WDFREQUEST handle, const char *call);
/* The same of one that isn't marked cancelable. */
struct iocsq_wdf_request *iocsq_wdf_unmarked(WDFREQUEST handle, const char *call);
void iocsq_wdf_refer(struct iocsq_wdf_request *r, int change);
void iocsq_wdf_remove(const struct iocsq_wdf_request *r); /* its handle is none any more */
struct iocsq_irp *iocsq_wdf_left(void); /* of a request that is there still; null: none is */
void iocsq_wdf_complete(struct iocsq_wdf_request *r, NTSTATUS status, CCHAR boost);
KIRQL iocsq_wdf_lock(struct iocsq_wdf_queue *q); /* with the next: null is no queue */
void iocsq_wdf_unlock(struct iocsq_wdf_queue *q, KIRQL irql);
bool iocsq_wdf_is_cancelled(struct iocsq_irp *i); /* the look at Irp->Cancel */

#endif
