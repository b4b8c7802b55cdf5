/* The framework's spin locks, and what runs later: timers, DPCs, work items. Each is the WDM's, and
 * ends with its parent. */
#include "wdfobjects.h"

/* ---- Spin locks ---- */
struct lock {
    struct iocsq_wdf_object object;
    KSPIN_LOCK lock;
    KIRQL before; /* its owner's */
};

NTSTATUS WdfSpinLockCreate(PWDF_OBJECT_ATTRIBUTES SpinLockAttributes, WDFSPINLOCK *SpinLock) {
    struct lock *made =
        iocsq_wdf_make(IOCSQ_WDF_LOCK, sizeof *made, SpinLockAttributes, WdfGetDriver());
    if (!made) {
        return STATUS_INSUFFICIENT_RESOURCES;
    }
    KeInitializeSpinLock(&made->lock);
    *SpinLock = (WDFSPINLOCK)(void *)made;
    return STATUS_SUCCESS;
}

VOID WdfSpinLockAcquire(WDFSPINLOCK SpinLock) {
    struct lock *l = iocsq_wdf_known(SpinLock, IOCSQ_WDF_LOCK, "WdfSpinLockAcquire");
    KIRQL before;
    KeAcquireSpinLock(&l->lock, &before);
    l->before = before;
}

VOID WdfSpinLockRelease(WDFSPINLOCK SpinLock) {
    struct lock *l = iocsq_wdf_known(SpinLock, IOCSQ_WDF_LOCK, "WdfSpinLockRelease");
    if (!iocsq_has_lock(&l->lock)) {
        iocsq_disagree(NULL, "WdfSpinLockRelease of a spin lock that this thread doesn't have");
    }
    KeReleaseSpinLock(&l->lock, l->before);
}

/* Where the attributes name no parent: KMDF then refuses timers, DPCs and work items. */
static bool has_parent(const WDF_OBJECT_ATTRIBUTES *attributes) {
    return attributes && attributes->ParentObject;
}

/* ---- Timers and DPCs ---- */
struct deferred {
    struct iocsq_wdf_object object;
    KTIMER timer; /* of a timer */
    KDPC dpc;
    ULONG period; /* milliseconds; 0: once */
    union {
        PFN_WDF_TIMER timer;
        PFN_WDF_DPC dpc;
    } call;
};

static VOID NTAPI run_deferred(PKDPC dpc, PVOID context, PVOID first, PVOID second) {
    const struct deferred *d = context;
    bool is_timer = d->object.kind == IOCSQ_WDF_TIMER;
    struct iocsq_wdf_entry entry = iocsq_wdf_enter();
    (void)dpc, (void)first, (void)second;
    if (is_timer) {
        d->call.timer((WDFTIMER)context);
    } else {
        d->call.dpc((WDFDPC)context);
    }
    iocsq_wdf_leave(entry, is_timer ? "EvtTimerFunc" : "EvtDpcFunc");
}

static void stop_deferred(struct iocsq_wdf_object *object, bool waits) {
    struct deferred *d = (struct deferred *)(void *)object;
    if (object->kind == IOCSQ_WDF_TIMER) {
        KeCancelTimer(&d->timer);
    }
    KeRemoveQueueDpc(&d->dpc);
    if (waits) {
        KeFlushQueuedDpcs();
    }
}

static struct deferred *make_deferred(enum iocsq_wdf_kind kind, PWDF_OBJECT_ATTRIBUTES attributes) {
    struct deferred *made = iocsq_wdf_make(kind, sizeof *made, attributes, NULL);
    if (made) {
        made->object.stop = stop_deferred;
        KeInitializeTimer(&made->timer);
        KeInitializeDpc(&made->dpc, run_deferred, made);
    }
    return made;
}

static struct deferred *known(const void *handle, enum iocsq_wdf_kind kind, const char *call) {
    return iocsq_wdf_known(handle, kind, call);
}

/* STATUS_WDF_PARENT_NOT_SPECIFIED, with the next two creates; STATUS_INSUFFICIENT_RESOURCES: no
 * memory. */
NTSTATUS WdfTimerCreate(PWDF_TIMER_CONFIG Config, PWDF_OBJECT_ATTRIBUTES Attributes,
                        WDFTIMER *Timer) {
    if (!has_parent(Attributes)) {
        return STATUS_WDF_PARENT_NOT_SPECIFIED;
    }
    struct deferred *made = make_deferred(IOCSQ_WDF_TIMER, Attributes);
    if (!made) {
        return STATUS_INSUFFICIENT_RESOURCES;
    }
    made->period = Config->Period;
    made->call.timer = Config->EvtTimerFunc;
    *Timer = (WDFTIMER)(void *)made;
    return STATUS_SUCCESS;
}

BOOLEAN WdfTimerStart(WDFTIMER Timer, LONGLONG DueTime) {
    struct deferred *d = known(Timer, IOCSQ_WDF_TIMER, "WdfTimerStart");
    LARGE_INTEGER due = { .QuadPart = DueTime };
    return !d->object.ends && KeSetTimerEx(&d->timer, due, (LONG)d->period, &d->dpc);
}

/* If it waits, at PASSIVE_LEVEL, so not in EvtTimerFunc. */
BOOLEAN WdfTimerStop(WDFTIMER Timer, BOOLEAN Wait) {
    struct deferred *d = known(Timer, IOCSQ_WDF_TIMER, "WdfTimerStop");
    BOOLEAN was_set;
    if (Wait) {
        iocsq_expect_irql(PASSIVE_LEVEL, "WdfTimerStop that waits");
    }
    was_set = KeCancelTimer(&d->timer);
    if (Wait) {
        KeFlushQueuedDpcs();
    }
    return was_set;
}

WDFOBJECT WdfTimerGetParentObject(WDFTIMER Timer) {
    return known(Timer, IOCSQ_WDF_TIMER, "WdfTimerGetParentObject")->object.parent;
}

NTSTATUS WdfDpcCreate(PWDF_DPC_CONFIG Config, PWDF_OBJECT_ATTRIBUTES Attributes, WDFDPC *Dpc) {
    if (!has_parent(Attributes)) {
        return STATUS_WDF_PARENT_NOT_SPECIFIED;
    }
    struct deferred *made = make_deferred(IOCSQ_WDF_DPC, Attributes);
    if (!made) {
        return STATUS_INSUFFICIENT_RESOURCES;
    }
    made->call.dpc = Config->EvtDpcFunc;
    *Dpc = (WDFDPC)(void *)made;
    return STATUS_SUCCESS;
}

BOOLEAN WdfDpcEnqueue(WDFDPC Dpc) {
    struct deferred *d = known(Dpc, IOCSQ_WDF_DPC, "WdfDpcEnqueue");
    return !d->object.ends && KeInsertQueueDpc(&d->dpc, NULL, NULL);
}

BOOLEAN WdfDpcCancel(WDFDPC Dpc, BOOLEAN Wait) {
    struct deferred *d = known(Dpc, IOCSQ_WDF_DPC, "WdfDpcCancel");
    BOOLEAN was_queued;
    if (Wait) {
        iocsq_expect_irql(PASSIVE_LEVEL, "WdfDpcCancel that waits");
    }
    was_queued = KeRemoveQueueDpc(&d->dpc);
    if (Wait) {
        KeFlushQueuedDpcs();
    }
    return was_queued;
}

WDFOBJECT WdfDpcGetParentObject(WDFDPC Dpc) {
    return known(Dpc, IOCSQ_WDF_DPC, "WdfDpcGetParentObject")->object.parent;
}

/* ---- Work items ---- */
struct item {
    struct iocsq_wdf_object object;
    PIO_WORKITEM item;
    PFN_WDF_WORKITEM call;
    bool queued; /* with the next, under the state's lock: it is, and its callback hasn't begun */
    uint32_t running;
};

static VOID NTAPI run_item(PDEVICE_OBJECT device, PVOID context) {
    struct item *w = context;
    struct iocsq_wdf_entry entry = iocsq_wdf_enter();
    (void)device;
    iocsq_lock_framework();
    w->queued = false;
    w->running++;
    iocsq_unlock_state();
    w->call((WDFWORKITEM)context);
    iocsq_wdf_leave(entry, "EvtWorkItemFunc");
    iocsq_lock_framework();
    w->running--;
    iocsq_state_changed();
    iocsq_unlock_state();
}

static bool is_done(void *item) {
    const struct item *w = item;
    return !w->queued && w->running == 0;
}

static void stop_item(struct iocsq_wdf_object *object, bool waits) {
    struct item *w = (struct item *)(void *)object;
    if (waits) {
        iocsq_lock_framework();
        iocsq_await(is_done, w, IOCSQ_FOR_EVER, "a work item");
        iocsq_touch_framework(); /* what was waited for came before */
        iocsq_unlock_state();
        IoFreeWorkItem(w->item);
    }
}

NTSTATUS WdfWorkItemCreate(PWDF_WORKITEM_CONFIG Config, PWDF_OBJECT_ATTRIBUTES Attributes,
                           WDFWORKITEM *WorkItem) {
    if (!has_parent(Attributes)) {
        return STATUS_WDF_PARENT_NOT_SPECIFIED;
    }
    struct item *made = iocsq_wdf_make(IOCSQ_WDF_ITEM, sizeof *made, Attributes, NULL);
    const struct iocsq_wdf_device *device = made ? iocsq_wdf_device_above(&made->object) : NULL;
    PIO_WORKITEM item = made ? IoAllocateWorkItem(device ? device->wdm : NULL) : NULL;
    if (!item) {
        if (made) {
            iocsq_wdf_end(&made->object);
        }
        return STATUS_INSUFFICIENT_RESOURCES;
    }
    made->item = item;
    made->object.stop = stop_item;
    made->call = Config->EvtWorkItemFunc;
    *WorkItem = (WDFWORKITEM)(void *)made;
    return STATUS_SUCCESS;
}

VOID WdfWorkItemEnqueue(WDFWORKITEM WorkItem) {
    struct item *w = iocsq_wdf_known(WorkItem, IOCSQ_WDF_ITEM, "WdfWorkItemEnqueue");
    iocsq_lock_framework();
    bool queues = !w->queued && !w->object.ends;
    w->queued = w->queued || queues;
    iocsq_unlock_state();
    if (queues) {
        IoQueueWorkItem(w->item, run_item, DelayedWorkQueue, w);
    }
}

VOID WdfWorkItemFlush(WDFWORKITEM WorkItem) {
    struct item *w = iocsq_wdf_known(WorkItem, IOCSQ_WDF_ITEM, "WdfWorkItemFlush");
    iocsq_expect_irql(PASSIVE_LEVEL, "WdfWorkItemFlush");
    iocsq_lock_framework();
    iocsq_await(is_done, w, IOCSQ_FOR_EVER, "a work item");
    iocsq_touch_framework(); /* what was waited for came before */
    iocsq_unlock_state();
}

WDFOBJECT WdfWorkItemGetParentObject(WDFWORKITEM WorkItem) {
    struct item *w = iocsq_wdf_known(WorkItem, IOCSQ_WDF_ITEM, "WdfWorkItemGetParentObject");
    return w->object.parent;
}
