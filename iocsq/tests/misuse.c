/* Calls that a driver must not make, each with its report. misuse.h says how it is run. */
#include "misuse.h"

static ULONG none[64]; /* what was never initialized */
static LARGE_INTEGER long_time = { .QuadPart = -1000000 };
static KIRQL irql;

/* ---- IRQL and locks ---- */
static void lower_up(void) { KeLowerIrql(DISPATCH_LEVEL); }
static void raise_down(void) {
    KeRaiseIrql(DISPATCH_LEVEL, &irql);
    KeRaiseIrql(PASSIVE_LEVEL, &irql);
}
static KSPIN_LOCK lock;
static void take_lock(void) {
    KeInitializeSpinLock(&lock);
    KeAcquireSpinLock(&lock, &irql);
}
static void take_twice(void) {
    take_lock();
    KeAcquireSpinLock(&lock, &irql);
}
static void lower_with_lock(void) {
    take_lock();
    KeLowerIrql(PASSIVE_LEVEL);
}
static void take_at_passive(void) {
    KeInitializeSpinLock(&lock);
    KeAcquireSpinLockAtDpcLevel(&lock);
}
static void take_uninitialized(void) { KeAcquireSpinLock((PKSPIN_LOCK)(void *)none, &irql); }
static void release_unowned(void) {
    KeInitializeSpinLock(&lock);
    KeRaiseIrql(DISPATCH_LEVEL, &irql);
    KeReleaseSpinLockFromDpcLevel(&lock);
}
static void lock_in_paged_pool(void) {
    KeInitializeSpinLock(ExAllocatePoolWithTag(PagedPool, sizeof lock, 'tseT'));
}
static void take_many(void) {
    static KSPIN_LOCK locks[17];
    KeRaiseIrql(DISPATCH_LEVEL, &irql);
    for (size_t at = 0; at < ARRAYSIZE(locks); at++) {
        KeInitializeSpinLock(&locks[at]);
        KeAcquireSpinLockAtDpcLevel(&locks[at]);
    }
}
static KLOCK_QUEUE_HANDLE handle;
static void use_handle_twice(void) {
    static KSPIN_LOCK other;
    KeInitializeSpinLock(&lock);
    KeInitializeSpinLock(&other);
    KeAcquireInStackQueuedSpinLock(&lock, &handle);
    KeAcquireInStackQueuedSpinLock(&other, &handle);
}
static void release_handle_unused(void) {
    take_lock();
    handle.Lock = &lock;
    KeReleaseInStackQueuedSpinLock(&handle);
}
static void release_mutex(void) {
    static KMUTEX mutex;
    KeInitializeMutex(&mutex, 0);
    KeReleaseMutex(&mutex, FALSE);
}

/* ---- Resources, rundown protection, remove locks ---- */
static ERESOURCE resource;
static void take_resource(void) {
    ExInitializeResourceLite(&resource);
    ExAcquireResourceExclusiveLite(&resource, TRUE);
}
static void delete_owned_resource(void) {
    take_resource();
    ExDeleteResourceLite(&resource);
}
static void begin_resource_twice(void) {
    ExInitializeResourceLite(&resource);
    ExInitializeResourceLite(&resource);
}
static void release_resource_unowned(void) {
    ExInitializeResourceLite(&resource);
    ExReleaseResourceLite(&resource);
}
static void convert_shared_resource(void) {
    ExInitializeResourceLite(&resource);
    ExAcquireResourceSharedLite(&resource, TRUE);
    ExConvertExclusiveToSharedLite(&resource);
}
static void use_deleted_resource(void) {
    ExInitializeResourceLite(&resource);
    ExDeleteResourceLite(&resource);
    ExAcquireResourceSharedLite(&resource, TRUE);
}
static EX_RUNDOWN_REF rundown;
static void release_rundown(void) {
    ExInitializeRundownProtection(&rundown);
    ExReleaseRundownProtection(&rundown);
}
static void await_rundown(void) {
    ExInitializeRundownProtection(&rundown);
    ExAcquireRundownProtection(&rundown);
    ExWaitForRundownProtectionRelease(&rundown);
}
static IO_REMOVE_LOCK remove_lock;
static void acquire_remove_lock(void) { IoAcquireRemoveLock(&remove_lock, NULL); }
static void await_remove_lock_twice(void) {
    IoInitializeRemoveLock(&remove_lock, 0, 0, 0);
    IoAcquireRemoveLock(&remove_lock, NULL);
    IoReleaseRemoveLockAndWait(&remove_lock, NULL);
    IoReleaseRemoveLockAndWait(&remove_lock, NULL);
}

/* ---- What threads wait for ---- */
static KSEMAPHORE semaphore;
static void begin_semaphore(void) { KeInitializeSemaphore(&semaphore, 2, 1); }
static void set_uninitialized_event(void) { KeSetEvent((PRKEVENT)(void *)none, 0, FALSE); }
static void wait_for_none(void) {
    KeWaitForMultipleObjects(0, NULL, WaitAny, Executive, KernelMode, FALSE, NULL, NULL);
}
static void end_other_thread(void) { PsTerminateSystemThread(STATUS_SUCCESS); }
static void close_unknown_handle(void) { ZwClose((HANDLE)(ULONG_PTR)99); }
static void reference_unknown(void) { ObReferenceObject(none); }

/* ---- DPCs, timers, work items, interrupts, device queues ---- */
static void queue_uninitialized_dpc(void) {
    KeInsertQueueDpc((PRKDPC)(void *)none, NULL, NULL);
}
static void use_deleted_timer(void) {
    PEX_TIMER timer = ExAllocateTimer(NULL, NULL, 0);
    ExSetTimer(timer, long_time.QuadPart, 0, NULL);
    ExDeleteTimer(timer, FALSE, FALSE, NULL); /* it is gone once it expires */
    ExSetTimer(timer, long_time.QuadPart, 0, NULL);
}
static void delete_timer_and_wait(void) {
    ExDeleteTimer(ExAllocateTimer(NULL, NULL, 0), FALSE, TRUE, NULL);
}
static VOID NTAPI work(PDEVICE_OBJECT device, PVOID context) { (void)device, (void)context; }
static void free_queued_item(void) {
    PIO_WORKITEM item = IoAllocateWorkItem(NULL);
    IoQueueWorkItem(item, work, DelayedWorkQueue, NULL);
    IoFreeWorkItem(item);
}
static void free_driver_item(void) {
    PIO_WORKITEM item = ExAllocatePoolWithTag(NonPagedPoolNx, IoSizeofWorkItem(), 'tseT');
    IoInitializeWorkItem(NULL, item);
    IoFreeWorkItem(item);
}
static void free_memory_of_queued_item(void) {
    PIO_WORKITEM item = ExAllocatePoolWithTag(NonPagedPoolNx, IoSizeofWorkItem(), 'tseT');
    IoInitializeWorkItem(NULL, item);
    IoQueueWorkItem(item, work, DelayedWorkQueue, NULL);
    ExFreePool(item);
}
static VOID NTAPI work_ex(PVOID object, PVOID context, PIO_WORKITEM item) {
    (void)object, (void)context, (void)item;
}
static void queue_item_twice(void) {
    PIO_WORKITEM item = IoAllocateWorkItem(NULL);
    IoQueueWorkItemEx(item, work_ex, DelayedWorkQueue, NULL);
    IoQueueWorkItemEx(item, work_ex, DelayedWorkQueue, NULL);
}
static VOID NTAPI work_of_executive(PVOID context) { (void)context; }
static void queue_item_of_executive_twice(void) {
    static WORK_QUEUE_ITEM item;
    ExInitializeWorkItem(&item, work_of_executive, NULL);
    ExQueueWorkItem(&item, DelayedWorkQueue);
    ExQueueWorkItem(&item, DelayedWorkQueue);
}
static void free_memory_of_item_of_executive(void) {
    PWORK_QUEUE_ITEM item = ExAllocatePoolWithTag(NonPagedPoolNx, sizeof *item, 'tseT');
    ExInitializeWorkItem(item, work_of_executive, NULL);
    ExQueueWorkItem(item, DelayedWorkQueue);
    ExFreePool(item);
}
static void connect_at_dispatch(void) {
    PKINTERRUPT made;
    IoConnectInterrupt(&made, NULL, NULL, NULL, 0, DISPATCH_LEVEL, DISPATCH_LEVEL, Latched, FALSE,
                       1, FALSE);
}
static void disconnect_unknown(void) { IoDisconnectInterrupt((PKINTERRUPT)(void *)none); }
static KDEVICE_QUEUE queue;
static void insert_at_passive(void) {
    static KDEVICE_QUEUE_ENTRY entry;
    KeInitializeDeviceQueue(&queue);
    KeInsertDeviceQueue(&queue, &entry);
}
static void remove_from_idle(void) {
    KeInitializeDeviceQueue(&queue);
    KeRaiseIrql(DISPATCH_LEVEL, &irql);
    KeRemoveDeviceQueue(&queue);
}
static void remove_from_uninitialized(void) {
    KeRaiseIrql(DISPATCH_LEVEL, &irql);
    KeRemoveDeviceQueue(&queue);
}

/* ---- Memory and lists ---- */
static void free_unknown_memory(void) { ExFreePool(none); }
static void free_with_other_tag(void) {
    ExFreePoolWithTag(ExAllocatePoolWithTag(NonPagedPoolNx, 8, 'tseT'), 'rehO');
}
static NPAGED_LOOKASIDE_LIST lookaside;
static void begin_half_a_lookaside_list(void) {
    ExInitializeNPagedLookasideList(&lookaside, ExAllocatePoolWithTag, NULL, 0, 8, 'tseT', 0);
}
static void allocate_from_uninitialized(void) { ExAllocateFromNPagedLookasideList(&lookaside); }
static void push_to_uninitialized(void) {
    static SLIST_ENTRY entry;
    static SLIST_HEADER head;
    InterlockedPushEntrySList(&head, &entry);
}
static void link_without_a_name(void) {
    UNICODE_STRING empty = { 0, 0, NULL };
    IoCreateSymbolicLink(&empty, &empty);
}
static void assert_false(void) { ASSERT(lock == 1); }

/* ---- IRPs, devices, queues ---- */
static void allocate_with_no_location(void) { IoAllocateIrp(0, FALSE); }
static void mark_unknown_irp(void) { IoMarkIrpPending((PIRP)(void *)none); }
static void mark_freed_irp(void) {
    PIRP irp = IoAllocateIrp(1, FALSE);
    IoFreeIrp(irp);
    IoMarkIrpPending(irp);
}
static void free_irp_twice(void) {
    PIRP irp = IoAllocateIrp(1, FALSE);
    IoFreeIrp(irp);
    IoFreeIrp(irp);
}
static void mark_without_a_location(void) { IoMarkIrpPending(IoAllocateIrp(1, FALSE)); }
static void complete_without_a_location(void) {
    IoCompleteRequest(IoAllocateIrp(1, FALSE), IO_NO_INCREMENT);
}

static PDEVICE_OBJECT device, other_device;
static NTSTATUS NTAPI entry_of_driver(PDRIVER_OBJECT driver, PUNICODE_STRING path) {
    (void)path;
    IoCreateDevice(driver, 0, NULL, FILE_DEVICE_UNKNOWN, 0, FALSE, &other_device);
    return IoCreateDevice(driver, 0, NULL, FILE_DEVICE_UNKNOWN, 0, FALSE, &device);
}
static void load(void) { IocsqLoad(entry_of_driver); }
static void delete_twice(void) {
    load();
    IoDeleteDevice(device);
    IoDeleteDevice((PDEVICE_OBJECT)(void *)none);
}
static void delete_referenced(void) {
    load();
    ObReferenceObject(device);
    IoDeleteDevice(device);
}
static void dereference_device(void) {
    load();
    ObDereferenceObject(device);
}
static void delete_below_another(void) {
    load();
    IoAttachDeviceToDeviceStack(device, other_device);
    IoDeleteDevice(other_device);
}
static void detach_none(void) {
    load();
    IoDetachDevice(device);
}
static void call_without_a_location(void) {
    load();
    PIRP irp = IoAllocateIrp(1, FALSE);
    IoSetNextIrpStackLocation(irp);
    IoCallDriver(device, irp);
}
static VOID NTAPI cancel(PDEVICE_OBJECT of, PIRP irp) { (void)of, (void)irp; }
static void call_with_a_cancel_routine(void) {
    load();
    PIRP irp = IoAllocateIrp(1, FALSE);
    IoSetCancelRoutine(irp, cancel);
    IoCallDriver(device, irp);
}
static void start_without_a_routine(void) {
    load();
    IoStartPacket(device, IoAllocateIrp(1, FALSE), NULL, NULL);
}
static void remove_from_no_queue(void) { IoCsqRemoveNextIrp((PIO_CSQ)(void *)none, NULL); }
static void begin_queue_without_callbacks(void) {
    static IO_CSQ csq;
    IoCsqInitialize(&csq, NULL, NULL, NULL, NULL, NULL, NULL);
}

static const struct {
    void (*make)(void);
    const char *report;
} misuses[] = {
    MISUSE(lower_up, "KeLowerIrql from 0 to 2"),
    MISUSE(raise_down, "KeRaiseIrql from 2 to 0"),
    MISUSE(take_twice, "a spin lock is taken again by the thread that has it"),
    MISUSE(lower_with_lock, "KeLowerIrql to 0 with a spin lock held"),
    MISUSE(take_at_passive, "KeAcquireSpinLockAtDpcLevel at IRQL 0"),
    MISUSE(take_uninitialized, "a spin lock that was not initialized, or was overwritten"),
    MISUSE(release_unowned, "a lock is released that this thread does not have"),
    MISUSE(lock_in_paged_pool, "a spin lock lies in the paged pool: it has to be nonpaged"),
    MISUSE(take_many, "more than 16 locks are held"),
    MISUSE(use_handle_twice, "a KLOCK_QUEUE_HANDLE is used for an acquire"),
    MISUSE(release_handle_unused, "a KLOCK_QUEUE_HANDLE is released that this thread acquired"),
    MISUSE(release_mutex, "KeReleaseMutex by a thread that doesn't have the mutex"),
    MISUSE(delete_owned_resource, "ExDeleteResourceLite of a resource that a thread has"),
    MISUSE(begin_resource_twice, "ExInitializeResourceLite of a resource that was not deleted"),
    MISUSE(release_resource_unowned, "ExReleaseResourceLite of a resource that this thread"),
    MISUSE(convert_shared_resource, "ExConvertExclusiveToSharedLite of a resource that this"),
    MISUSE(use_deleted_resource, "ExAcquireResourceSharedLite of a resource that was not init"),
    MISUSE(release_rundown, "ExReleaseRundownProtection without an acquire"),
    MISUSE(await_rundown, "ExWaitForRundownProtectionRelease waits for an acquire that is never"),
    MISUSE(acquire_remove_lock, "IoAcquireRemoveLock of a remove lock that was not initialized"),
    MISUSE(await_remove_lock_twice, "IoReleaseRemoveLockAndWait of a remove lock that was waited"),
    MISUSE(begin_semaphore, "KeInitializeSemaphore with count 2 and limit 1"),
    MISUSE(set_uninitialized_event, "KeSetEvent of an object that was not initialized"),
    MISUSE(wait_for_none, "a wait for 0 objects"),
    MISUSE(end_other_thread, "PsTerminateSystemThread by a thread that isn't the driver's"),
    MISUSE(close_unknown_handle, "ZwClose of a handle that isn't open"),
    MISUSE(reference_unknown, "which is no thread, file object or device"),
    MISUSE(queue_uninitialized_dpc, "KeInsertQueueDpc of a DPC that was not initialized"),
    MISUSE(use_deleted_timer, "ExSetTimer of a timer that was deleted"),
    MISUSE(delete_timer_and_wait, "ExDeleteTimer that waits, and doesn't cancel"),
    MISUSE(free_queued_item, "IoFreeWorkItem of a work item that is queued"),
    MISUSE(free_driver_item, "IoFreeWorkItem of a work item that was made by the other call"),
    MISUSE(free_memory_of_queued_item, "ExFreePool of memory, and a work item in it is queued"),
    MISUSE(queue_item_twice, "IoQueueWorkItemEx of a work item that is queued already"),
    MISUSE(queue_item_of_executive_twice, "ExQueueWorkItem of a work item that is queued already"),
    MISUSE(free_memory_of_item_of_executive, "ExFreePool of memory, and a work item in it is"),
    MISUSE(connect_at_dispatch, "IoConnectInterrupt with IRQL 2 and SynchronizeIrql 2"),
    MISUSE(disconnect_unknown, "IoDisconnectInterrupt of an interrupt that isn't connected"),
    MISUSE(insert_at_passive, "KeInsertDeviceQueue below DISPATCH_LEVEL"),
    MISUSE(remove_from_idle, "KeRemoveDeviceQueue of a device queue that isn't busy"),
    MISUSE(remove_from_uninitialized, "KeRemoveDeviceQueue of a device queue that was not init"),
    MISUSE(free_unknown_memory, "ExFreePool of memory that was not allocated"),
    MISUSE(free_with_other_tag, "ExFreePoolWithTag with the tag"),
    MISUSE(begin_half_a_lookaside_list, "a lookaside list has one of the routines Allocate and"),
    MISUSE(allocate_from_uninitialized, "of a lookaside list that was not initialized"),
    MISUSE(push_to_uninitialized, "InterlockedPushEntrySList of a list whose head was not init"),
    MISUSE(link_without_a_name, "IoCreateSymbolicLink with a name of 0 bytes"),
    MISUSE(assert_false, "an assert of the driver does not hold: lock == 1"),
    MISUSE(allocate_with_no_location, "IoAllocateIrp with 0 stack locations"),
    MISUSE(mark_unknown_irp, "which is no IRP"),
    MISUSE(mark_freed_irp, "IoMarkIrpPending of irp 0, which was freed"),
    MISUSE(free_irp_twice, "IoFreeIrp of irp 0, which was freed before"),
    MISUSE(mark_without_a_location, "IoMarkIrpPending of irp 0, which has no current stack"),
    MISUSE(complete_without_a_location, "IoCompleteRequest of irp 0, which has no current stack"),
    MISUSE(delete_twice, "IoDeleteDevice of a device that was deleted before, or is none"),
    MISUSE(delete_referenced, "IoDeleteDevice of a device, and a reference to it was not dropped"),
    MISUSE(dereference_device, "ObDereferenceObject of a device, more often than it was"),
    MISUSE(delete_below_another, "IoDeleteDevice of a device, and another is attached to it"),
    MISUSE(detach_none, "IoDetachDevice of a device that none is attached to"),
    MISUSE(call_without_a_location, "IoCallDriver of irp 0, which has no stack location left"),
    MISUSE(call_with_a_cancel_routine, "IoCallDriver of irp 0, which still has a cancel routine"),
    MISUSE(start_without_a_routine, "IoStartPacket of a driver that has no DriverStartIo"),
    MISUSE(remove_from_no_queue, "a call of an IO_CSQ that was not initialized"),
    MISUSE(begin_queue_without_callbacks, "a callback of IoCsqInitialize is null"),
};

int main(int argc, char **argv) {
    size_t number = choose(argc, argv, ARRAYSIZE(misuses));
    announce(misuses[number].report);
    misuses[number].make();
    return 0;
}
