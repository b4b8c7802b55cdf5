/* Work items, on threads of the system. The state's lock is held for all of it, but not while a
 * routine of the driver runs. */
#include "internal.h"

#include <stdlib.h>

enum { WORKERS = 2 };

struct _IO_WORKITEM {
    struct _IO_WORKITEM *next;
    PDEVICE_OBJECT device;
    PIO_WORKITEM_ROUTINE routine;
    PIO_WORKITEM_ROUTINE_EX routine_ex; /* or null */
    PWORK_QUEUE_ITEM of_executive;      /* ExQueueWorkItem's, or null */
    PVOID context;
    bool queued;
    bool of_driver; /* its memory */
};

static struct _IO_WORKITEM *first_work, *last_work;
static IOCSQ_THREAD workers[WORKERS];
static uint32_t items_allocated;
static bool ending;

/* ---- The workers ---- */
static bool has_work(void *of) {
    (void)of;
    return first_work || ending;
}

/* An item of the executive is the driver's memory, which its routine may free or queue again. */
static void call_of_executive(struct _IO_WORKITEM *item) {
    WORK_QUEUE_ITEM call = *item->of_executive;
    free(item);
    call.WorkerRoutine(call.Parameter);
}

static void call_item(struct _IO_WORKITEM *item) {
    struct _IO_WORKITEM call = *item; /* its routine may free it, or queue it again */
    if (call.routine_ex) {
        call.routine_ex(call.device, call.context, item);
    } else {
        call.routine(call.device, call.context);
    }
}

static void run_first_work(void) {
    iocsq_touch(&first_work, IOCSQ_CHANGES);
    struct _IO_WORKITEM *item = first_work;
    PDEVICE_OBJECT device = item->device;
    first_work = item->next;
    item->queued = false;
    if (item->of_executive) {
        item->of_executive->List.Flink = NULL;
    }
    uint32_t part = iocsq_begin_part(item);
    iocsq_unlock_state();
    iocsq_begin_routine("a work item");
    if (item->of_executive) {
        call_of_executive(item);
    } else {
        call_item(item);
    }
    iocsq_end_routine("a work item", PASSIVE_LEVEL);
    iocsq_let_go_of_device(device);
    iocsq_end_part(&items_allocated, part);
    iocsq_lock_state_for(&first_work, IOCSQ_CHANGES);
}

static void *run_worker(void *of) {
    iocsq_lock_state_for(&first_work, IOCSQ_CHANGES);
    while (iocsq_await(has_work, NULL, IOCSQ_FOR_EVER, "a work item") && first_work) {
        run_first_work();
    }
    iocsq_touch(&first_work, IOCSQ_LOOKS);
    iocsq_unlock_state();
    return of;
}

static void queue(struct _IO_WORKITEM *item) {
    iocsq_touch(&first_work, IOCSQ_CHANGES);
    iocsq_touch(item, IOCSQ_CHANGES | IOCSQ_RELEASES);
    for (int at = 0; at < WORKERS && !workers[at]; at++) {
        workers[at] = IocsqThread(run_worker, NULL);
    }
    item->queued = true;
    item->next = NULL;
    *(first_work ? &last_work->next : &first_work) = item;
    last_work = item;
    iocsq_hold_device(item->device);
    iocsq_state_changed();
}

/* ---- Items of the I/O manager, which keep their device ---- */
static void begin_item(struct _IO_WORKITEM *item, PDEVICE_OBJECT device, bool of_driver) {
    struct _IO_WORKITEM made = { .device = device, .of_driver = of_driver };
    *item = made;
    __atomic_add_fetch(&items_allocated, 1, __ATOMIC_SEQ_CST);
}

PIO_WORKITEM NTAPI IoAllocateWorkItem(PDEVICE_OBJECT DeviceObject) {
    struct _IO_WORKITEM *item = iocsq_is_scarce("IoAllocateWorkItem") ? NULL : malloc(sizeof *item);
    if (item) {
        begin_item(item, DeviceObject, false);
    }
    return item;
}

ULONG NTAPI IoSizeofWorkItem(VOID) {
    return sizeof(struct _IO_WORKITEM);
}

VOID NTAPI IoInitializeWorkItem(PVOID IoObject, PIO_WORKITEM IoWorkItem) {
    iocsq_expect_nonpaged(IoWorkItem, "a work item");
    begin_item(IoWorkItem, IoObject, true);
}

static void queue_item(PIO_WORKITEM item, PIO_WORKITEM_ROUTINE routine,
                       PIO_WORKITEM_ROUTINE_EX routine_ex, PVOID context) {
    item->routine = routine;
    item->routine_ex = routine_ex;
    item->context = context;
    queue(item);
}

VOID NTAPI IoQueueWorkItem(PIO_WORKITEM IoWorkItem, PIO_WORKITEM_ROUTINE WorkerRoutine,
                           WORK_QUEUE_TYPE QueueType, PVOID Context) {
    (void)QueueType;
    iocsq_log_of_driver("IoQueueWorkItem");
    iocsq_lock_state_for(IoWorkItem, IOCSQ_CHANGES);
    if (IoWorkItem->queued) {
        iocsq_disagree(NULL, "IoQueueWorkItem of a work item that is queued already");
    }
    queue_item(IoWorkItem, WorkerRoutine, NULL, Context);
    iocsq_unlock_state();
}

BOOLEAN NTAPI IoTryQueueWorkItem(PIO_WORKITEM IoWorkItem, PIO_WORKITEM_ROUTINE_EX WorkerRoutine,
                                 WORK_QUEUE_TYPE QueueType, PVOID Context) {
    (void)QueueType;
    iocsq_log_of_driver("IoTryQueueWorkItem");
    iocsq_lock_state_for(IoWorkItem, IOCSQ_SYNC);
    bool queues = !IoWorkItem->queued;
    if (queues) {
        queue_item(IoWorkItem, NULL, WorkerRoutine, Context);
    }
    iocsq_unlock_state();
    return queues;
}

VOID NTAPI IoQueueWorkItemEx(PIO_WORKITEM IoWorkItem, PIO_WORKITEM_ROUTINE_EX WorkerRoutine,
                             WORK_QUEUE_TYPE QueueType, PVOID Context) {
    if (!IoTryQueueWorkItem(IoWorkItem, WorkerRoutine, QueueType, Context)) {
        iocsq_disagree(NULL, "IoQueueWorkItemEx of a work item that is queued already");
    }
}

static void end_item(const struct _IO_WORKITEM *item, bool of_driver, const char *call) {
    iocsq_lock_state_for(item, IOCSQ_CHANGES);
    if (item->queued) {
        iocsq_disagree(NULL, "%s of a work item that is queued", call);
    }
    if (item->of_driver != of_driver) {
        iocsq_disagree(NULL, "%s of a work item that was made by the other call", call);
    }
    iocsq_unlock_state();
    __atomic_sub_fetch(&items_allocated, 1, __ATOMIC_SEQ_CST);
}

VOID NTAPI IoFreeWorkItem(PIO_WORKITEM IoWorkItem) {
    end_item(IoWorkItem, false, "IoFreeWorkItem");
    free(IoWorkItem);
}

VOID NTAPI IoUninitializeWorkItem(PIO_WORKITEM IoWorkItem) {
    end_item(IoWorkItem, true, "IoUninitializeWorkItem");
}

/* ---- Items of the executive: nothing keeps the driver loaded while one is queued ---- */
VOID NTAPI ExQueueWorkItem(PWORK_QUEUE_ITEM WorkItem, WORK_QUEUE_TYPE QueueType) {
    struct _IO_WORKITEM *item = calloc(1, sizeof *item);
    (void)QueueType;
    if (!item) {
        iocsq_fail("no memory for a work item");
    }
    iocsq_expect_nonpaged(WorkItem, "a work item");
    iocsq_log_of_driver("ExQueueWorkItem");
    iocsq_lock_state_for(WorkItem, IOCSQ_CHANGES);
    if (WorkItem->List.Flink) {
        iocsq_disagree(NULL, "ExQueueWorkItem of a work item that is queued already, or that was "
                             "not initialized");
    }
    WorkItem->List.Flink = WorkItem->List.Blink = &WorkItem->List;
    item->of_executive = WorkItem;
    queue(item);
    iocsq_unlock_state();
}

/* ---- Ends ---- */
/* Where the item is that the driver has memory for; null: the system has it. */
static const void *memory_of(const struct _IO_WORKITEM *item) {
    return item->of_executive ? (const void *)item->of_executive : item->of_driver ? item : NULL;
}

void iocsq_check_no_work(const void *from, size_t size, const char *what) {
    iocsq_touch(&first_work, IOCSQ_LOOKS);
    for (const struct _IO_WORKITEM *at = first_work; at; at = at->next) {
        if (memory_of(at) && (uintptr_t)memory_of(at) - (uintptr_t)from < size) {
            iocsq_disagree(NULL, "%s, and a work item in it is queued", what);
        }
    }
}

/* Those that are queued are run first: each keeps its device, and so its driver. */
void iocsq_end_works(void) {
    iocsq_lock_state_for(&first_work, IOCSQ_CHANGES);
    ending = true;
    iocsq_state_changed();
    iocsq_unlock_state();
    for (int at = 0; at < WORKERS && workers[at]; at++) {
        IocsqJoin(workers[at]);
        workers[at] = NULL; /* another driver, loaded after this one, begins anew */
    }
    ending = false;
    if (items_allocated > 0) {
        iocsq_disagree(NULL, "the driver was unloaded, and a work item of it was not freed");
    }
}
