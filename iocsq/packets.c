/* Device queues, and StartIo: one request at a time is the device's, and the others wait in the
 * device's queue, with a cancel routine if the driver gives one. */
#include "internal.h"

/* A device queue's calls are for DISPATCH_LEVEL: below it, the thread that calls might be
 * preempted, and the device stand still. */
static void expect_dispatch(const char *call) {
    iocsq_expect_irql(DISPATCH_LEVEL, call);
    if (KeGetCurrentIrql() < DISPATCH_LEVEL) {
        iocsq_disagree(NULL, "%s below DISPATCH_LEVEL", call);
    }
}

/* ---- Device queues ---- */
enum { DEVICE_QUEUE = 20 };

VOID NTAPI KeInitializeDeviceQueue(PKDEVICE_QUEUE DeviceQueue) {
    iocsq_expect_nonpaged(DeviceQueue, "a device queue");
    DeviceQueue->Type = DEVICE_QUEUE;
    DeviceQueue->Busy = FALSE;
    KeInitializeSpinLock(&DeviceQueue->Lock);
    InitializeListHead(&DeviceQueue->DeviceListHead);
}

static void lock(PKDEVICE_QUEUE queue, const char *call) {
    expect_dispatch(call);
    if (queue->Type != DEVICE_QUEUE) {
        iocsq_disagree(NULL, "%s of a device queue that was not initialized, or was overwritten",
                       call);
    }
    KeAcquireSpinLockAtDpcLevel(&queue->Lock);
}

static void unlock(PKDEVICE_QUEUE queue) {
    KeReleaseSpinLockFromDpcLevel(&queue->Lock);
}

static PKDEVICE_QUEUE_ENTRY entry_of(PLIST_ENTRY link) {
    return CONTAINING_RECORD(link, KDEVICE_QUEUE_ENTRY, DeviceListEntry);
}

/* The first entry whose key isn't below this one, or the head. */
static PLIST_ENTRY from_key(PKDEVICE_QUEUE queue, ULONG key) {
    PLIST_ENTRY at = queue->DeviceListHead.Flink;
    while (at != &queue->DeviceListHead && entry_of(at)->SortKey < key) {
        at = at->Flink;
    }
    return at;
}

/* Puts an entry in front of that one, or of the head, if the device is busy; otherwise the device
 * is from now on. */
static BOOLEAN insert(PKDEVICE_QUEUE queue, PKDEVICE_QUEUE_ENTRY entry, PLIST_ENTRY before) {
    entry->Inserted = queue->Busy;
    if (queue->Busy) {
        InsertTailList(before, &entry->DeviceListEntry);
    }
    queue->Busy = TRUE;
    return entry->Inserted;
}

BOOLEAN NTAPI KeInsertDeviceQueue(PKDEVICE_QUEUE DeviceQueue,
                                  PKDEVICE_QUEUE_ENTRY DeviceQueueEntry) {
    lock(DeviceQueue, "KeInsertDeviceQueue");
    BOOLEAN inserted = insert(DeviceQueue, DeviceQueueEntry, &DeviceQueue->DeviceListHead);
    unlock(DeviceQueue);
    return inserted;
}

BOOLEAN NTAPI KeInsertByKeyDeviceQueue(PKDEVICE_QUEUE DeviceQueue,
                                       PKDEVICE_QUEUE_ENTRY DeviceQueueEntry, ULONG SortKey) {
    lock(DeviceQueue, "KeInsertByKeyDeviceQueue");
    DeviceQueueEntry->SortKey = SortKey;
    PLIST_ENTRY above = SortKey < MAXULONG ? from_key(DeviceQueue, SortKey + 1)
                                           : &DeviceQueue->DeviceListHead;
    BOOLEAN inserted = insert(DeviceQueue, DeviceQueueEntry, above);
    unlock(DeviceQueue);
    return inserted;
}

/* Takes this one out, or the first one for the head. Null: there is none, and the device isn't busy
 * any more. */
static PKDEVICE_QUEUE_ENTRY take(PKDEVICE_QUEUE queue, PLIST_ENTRY at, const char *call) {
    PLIST_ENTRY head = &queue->DeviceListHead;
    if (!queue->Busy) {
        iocsq_disagree(NULL, "%s of a device queue that isn't busy", call);
    }
    if (IsListEmpty(head)) {
        queue->Busy = FALSE;
        return NULL;
    }
    PKDEVICE_QUEUE_ENTRY entry = entry_of(at == head ? head->Flink : at);
    RemoveEntryList(&entry->DeviceListEntry);
    entry->Inserted = FALSE;
    return entry;
}

PKDEVICE_QUEUE_ENTRY NTAPI KeRemoveDeviceQueue(PKDEVICE_QUEUE DeviceQueue) {
    lock(DeviceQueue, "KeRemoveDeviceQueue");
    PKDEVICE_QUEUE_ENTRY entry =
        take(DeviceQueue, &DeviceQueue->DeviceListHead, "KeRemoveDeviceQueue");
    unlock(DeviceQueue);
    return entry;
}

PKDEVICE_QUEUE_ENTRY NTAPI KeRemoveByKeyDeviceQueue(PKDEVICE_QUEUE DeviceQueue, ULONG SortKey) {
    lock(DeviceQueue, "KeRemoveByKeyDeviceQueue");
    PKDEVICE_QUEUE_ENTRY entry =
        take(DeviceQueue, from_key(DeviceQueue, SortKey), "KeRemoveByKeyDeviceQueue");
    unlock(DeviceQueue);
    return entry;
}

BOOLEAN NTAPI KeRemoveEntryDeviceQueue(PKDEVICE_QUEUE DeviceQueue,
                                       PKDEVICE_QUEUE_ENTRY DeviceQueueEntry) {
    KIRQL before = KeRaiseIrqlToDpcLevel();
    lock(DeviceQueue, "KeRemoveEntryDeviceQueue");
    BOOLEAN inserted = DeviceQueueEntry->Inserted;
    if (inserted) {
        RemoveEntryList(&DeviceQueueEntry->DeviceListEntry);
        DeviceQueueEntry->Inserted = FALSE;
    }
    unlock(DeviceQueue);
    KeLowerIrql(before);
    return inserted;
}

/* ---- StartIo ---- */
VOID NTAPI IoSetStartIoAttributes(PDEVICE_OBJECT DeviceObject, BOOLEAN DeferredStartIo,
                                  BOOLEAN NonCancelable) {
    (void)DeferredStartIo;
    DeviceObject->StartIoNonCancelable = NonCancelable;
}

/* The device gets this request: its routine is called with no lock, at DISPATCH_LEVEL. */
static void start(PDEVICE_OBJECT device, PIRP irp) {
    struct iocsq_irp *i = iocsq_irp_at(irp);
    if (!device->DriverObject->DriverStartIo) {
        iocsq_disagree(i, "IoStartPacket of a driver that has no DriverStartIo");
    }
    iocsq_log(i, "  the driver's StartIo of irp %u", i ? i->index : 0);
    device->DriverObject->DriverStartIo(device, irp);
}

/* It is the device's from now on. With a cancel routine, the cancel spin lock is held. */
static void make_current(PDEVICE_OBJECT device, PIRP irp, bool cancelable) {
    iocsq_touch(&device->CurrentIrp, IOCSQ_CHANGES | IOCSQ_WORD);
    device->CurrentIrp = irp;
    if (cancelable && device->StartIoNonCancelable) {
        IoSetCancelRoutine(irp, NULL);
    }
}

static BOOLEAN insert_packet(PDEVICE_OBJECT device, PIRP irp, const ULONG *key) {
    PKDEVICE_QUEUE_ENTRY entry = &irp->Tail.Overlay.DeviceQueueEntry;
    return key ? KeInsertByKeyDeviceQueue(&device->DeviceQueue, entry, *key)
               : KeInsertDeviceQueue(&device->DeviceQueue, entry);
}

/* With a cancel routine, under the cancel spin lock: so a cancel comes before, and is seen, or
 * after. */
static void start_cancelable(PDEVICE_OBJECT device, PIRP irp, const ULONG *key,
                             PDRIVER_CANCEL routine) {
    struct iocsq_irp *i = iocsq_irp_at(irp);
    KIRQL before;
    IoAcquireCancelSpinLock(&before);
    IoSetCancelRoutine(irp, routine);
    BOOLEAN waits = insert_packet(device, irp, key);
    if (!waits) {
        make_current(device, irp, true);
        iocsq_hand_start(i);
        IoReleaseCancelSpinLock(before);
        start(device, irp); /* which looks at the flag */
        return;
    }
    iocsq_hand_look(i);
    if (irp->Cancel && IoSetCancelRoutine(irp, NULL)) {
        irp->CancelIrql = before;
        routine(device, irp); /* which releases the cancel spin lock */
        return;
    }
    IoReleaseCancelSpinLock(before);
}

VOID NTAPI IoStartPacket(PDEVICE_OBJECT DeviceObject, PIRP Irp, PULONG Key,
                         PDRIVER_CANCEL CancelFunction) {
    struct iocsq_irp *i = iocsq_irp_at(Irp);
    iocsq_expect_irql(DISPATCH_LEVEL, "IoStartPacket");
    iocsq_log(i, "IoStartPacket(irp %u)", i ? i->index : 0);
    KIRQL before = KeRaiseIrqlToDpcLevel();
    if (CancelFunction) {
        start_cancelable(DeviceObject, Irp, Key, CancelFunction);
    } else if (!insert_packet(DeviceObject, Irp, Key)) {
        make_current(DeviceObject, Irp, false);
        start(DeviceObject, Irp);
    }
    KeLowerIrql(before);
}

/* The device is free for the next one: by its key, or the first one. */
static void start_next(PDEVICE_OBJECT device, BOOLEAN cancelable, const ULONG *key,
                       const char *call) {
    KIRQL before = DISPATCH_LEVEL;
    expect_dispatch(call);
    iocsq_log(NULL, "%s", call);
    if (cancelable) {
        IoAcquireCancelSpinLock(&before);
    }
    iocsq_touch(&device->CurrentIrp, IOCSQ_CHANGES | IOCSQ_WORD);
    device->CurrentIrp = NULL;
    PKDEVICE_QUEUE_ENTRY entry = key ? KeRemoveByKeyDeviceQueue(&device->DeviceQueue, *key)
                                     : KeRemoveDeviceQueue(&device->DeviceQueue);
    PIRP irp = entry ? CONTAINING_RECORD(entry, IRP, Tail.Overlay.DeviceQueueEntry) : NULL;
    if (irp) {
        make_current(device, irp, cancelable);
    }
    if (cancelable) {
        IoReleaseCancelSpinLock(before);
    }
    if (irp) {
        start(device, irp);
    }
}

VOID NTAPI IoStartNextPacket(PDEVICE_OBJECT DeviceObject, BOOLEAN Cancelable) {
    start_next(DeviceObject, Cancelable, NULL, "IoStartNextPacket");
}

VOID NTAPI IoStartNextPacketByKey(PDEVICE_OBJECT DeviceObject, BOOLEAN Cancelable, ULONG Key) {
    start_next(DeviceObject, Cancelable, &Key, "IoStartNextPacketByKey");
}
