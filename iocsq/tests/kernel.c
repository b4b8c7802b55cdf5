/* What stands for the kernel, call by call: kernel [turns]. */
#include "check.h"

static LARGE_INTEGER after_milliseconds(LONG milliseconds) {
    LARGE_INTEGER time;
    time.QuadPart = -10000 * (LONGLONG)milliseconds;
    return time;
}

static NTSTATUS wait_for(PVOID object, LONG milliseconds) {
    LARGE_INTEGER time = after_milliseconds(milliseconds);
    return KeWaitForSingleObject(object, Executive, KernelMode, FALSE, &time);
}

/* ---- Events, mutexes, semaphores ---- */
static void events(void) {
    KEVENT stays, goes;
    KeInitializeEvent(&stays, NotificationEvent, FALSE);
    KeInitializeEvent(&goes, SynchronizationEvent, TRUE);
    CHECK(wait_for(&stays, 1) == STATUS_TIMEOUT);
    CHECK(KeSetEvent(&stays, IO_NO_INCREMENT, FALSE) == 0);
    CHECK(wait_for(&stays, 0) == STATUS_SUCCESS && wait_for(&stays, 0) == STATUS_SUCCESS);
    CHECK(wait_for(&goes, 0) == STATUS_SUCCESS && wait_for(&goes, 0) == STATUS_TIMEOUT);
    CHECK(KeReadStateEvent(&stays) == 1 && KeResetEvent(&stays) == 1);
    KeClearEvent(&stays);
    CHECK(KeReadStateEvent(&stays) == 0);
}

/* How many milliseconds have passed since this time. */
static LONGLONG since(ULONGLONG begun) {
    return (LONGLONG)(KeQueryInterruptTime() - begun) / 10000;
}

static KEVENT waited_for;
static NTSTATUS waited;

static void *wait_long(void *of) {
    waited = wait_for(&waited_for, 20000);
    return of;
}

/* A wait ends at its time, which is far from another unit's; or sooner, but not because of another
 * event. A system's tick is at most 16 milliseconds. */
static void times(void) {
    KEVENT other;
    LARGE_INTEGER delay = after_milliseconds(60);
    ULONGLONG begun = KeQueryInterruptTime();
    KeInitializeEvent(&other, SynchronizationEvent, FALSE);
    KeInitializeEvent(&waited_for, NotificationEvent, FALSE);
    CHECK(wait_for(&other, 60) == STATUS_TIMEOUT && since(begun) >= 40 && since(begun) < 10000);
    begun = KeQueryInterruptTime();
    CHECK(KeDelayExecutionThread(KernelMode, FALSE, &delay) == STATUS_SUCCESS);
    CHECK(since(begun) >= 40 && since(begun) < 10000);
    begun = KeQueryInterruptTime();
    IOCSQ_THREAD thread = IocsqThread(wait_long, NULL);
    IocsqPause(30000);
    KeSetEvent(&other, IO_NO_INCREMENT, FALSE);
    IocsqPause(30000);
    KeSetEvent(&waited_for, IO_NO_INCREMENT, FALSE);
    IocsqJoin(thread);
    CHECK(waited == STATUS_SUCCESS && since(begun) < 10000);
}

static void mutexes(void) {
    KMUTEX mutex;
    KeInitializeMutex(&mutex, 0);
    /* Twice by its owner. */
    CHECK(wait_for(&mutex, 0) == STATUS_SUCCESS && wait_for(&mutex, 0) == STATUS_SUCCESS);
    KeReleaseMutex(&mutex, FALSE);
    KeReleaseMutex(&mutex, FALSE);
    CHECK(mutex.OwnerThread == 0);
}

static void several_objects(void) {
    KSEMAPHORE semaphore;
    KEVENT event;
    PVOID objects[2] = { &semaphore, &event };
    LARGE_INTEGER now = after_milliseconds(0);
    KeInitializeSemaphore(&semaphore, 0, 2);
    KeInitializeEvent(&event, SynchronizationEvent, TRUE);
    CHECK(KeWaitForMultipleObjects(2, objects, WaitAll, Executive, KernelMode, FALSE, &now, NULL) ==
          STATUS_TIMEOUT);
    CHECK(KeWaitForMultipleObjects(2, objects, WaitAny, Executive, KernelMode, FALSE, &now, NULL) ==
          STATUS_WAIT_0 + 1);
    KeSetEvent(&event, IO_NO_INCREMENT, FALSE);
    CHECK(KeReleaseSemaphore(&semaphore, IO_NO_INCREMENT, 2, FALSE) == 0);
    CHECK(KeWaitForMultipleObjects(2, objects, WaitAll, Executive, KernelMode, FALSE, &now, NULL) ==
          STATUS_SUCCESS);
    CHECK(semaphore.Header.SignalState == 1 && KeReadStateEvent(&event) == 0);
}

/* ---- Locks ---- */
static void locks(void) {
    KSPIN_LOCK lock;
    KLOCK_QUEUE_HANDLE handle;
    FAST_MUTEX mutex;
    KIRQL before;
    KeInitializeSpinLock(&lock);
    ExInitializeFastMutex(&mutex);
    KeAcquireInStackQueuedSpinLock(&lock, &handle);
    CHECK(KeGetCurrentIrql() == DISPATCH_LEVEL);
    KeReleaseInStackQueuedSpinLock(&handle);
    ExAcquireFastMutex(&mutex);
    CHECK(KeGetCurrentIrql() == APC_LEVEL);
    ExReleaseFastMutex(&mutex);
    KeRaiseIrql(DISPATCH_LEVEL, &before);
    KeAcquireSpinLockAtDpcLevel(&lock);
    KeReleaseSpinLockFromDpcLevel(&lock);
    KeLowerIrql(before);
    CHECK(KeGetCurrentIrql() == PASSIVE_LEVEL);
}

static void remove_locks(void) {
    IO_REMOVE_LOCK lock;
    int tag;
    IoInitializeRemoveLock(&lock, 'tseT', 0, 0);
    CHECK(IoAcquireRemoveLock(&lock, &tag) == STATUS_SUCCESS &&
          IoAcquireRemoveLock(&lock, NULL) == STATUS_SUCCESS);
    IoReleaseRemoveLock(&lock, NULL);
    IoReleaseRemoveLockAndWait(&lock, &tag);
    CHECK(IoAcquireRemoveLock(&lock, &tag) == STATUS_DELETE_PENDING);
}

/* ---- Timers, DPCs, work items ---- */
static LONG runs;
static PVOID last_argument;

static VOID NTAPI count(PKDPC dpc, PVOID context, PVOID first, PVOID second) {
    (void)dpc, (void)second;
    CHECK(KeGetCurrentIrql() == DISPATCH_LEVEL);
    InterlockedIncrement((LONG *)context);
    last_argument = first;
}

static void timers_and_dpcs(void) {
    KTIMER timer;
    KDPC dpc;
    runs = 0;
    KeInitializeDpc(&dpc, count, &runs);
    CHECK(KeInsertQueueDpc(&dpc, &timer, NULL));
    KeFlushQueuedDpcs();
    CHECK(runs == 1 && last_argument == &timer && !KeRemoveQueueDpc(&dpc));
    KeInitializeTimer(&timer);
    CHECK(!KeSetTimer(&timer, after_milliseconds(2), &dpc) &&
          KeSetTimer(&timer, after_milliseconds(1), &dpc));
    CHECK(wait_for(&timer, 1000) == STATUS_SUCCESS && KeReadStateTimer(&timer));
    KeFlushQueuedDpcs();
    CHECK(runs == 2 && !KeCancelTimer(&timer));
    KeInitializeTimerEx(&timer, SynchronizationTimer);
    KeSetTimerEx(&timer, after_milliseconds(1), 1, &dpc);
    CHECK(wait_for(&timer, 1000) == STATUS_SUCCESS && wait_for(&timer, 1000) == STATUS_SUCCESS);
    CHECK(KeCancelTimer(&timer));
    KeFlushQueuedDpcs();
    CHECK(runs >= 3); /* a DPC that is queued already is queued once */
}

static VOID NTAPI set_event(PDEVICE_OBJECT device, PVOID context) {
    (void)device;
    KeSetEvent(context, IO_NO_INCREMENT, FALSE);
}

static void work_items(void) {
    KEVENT done;
    PIO_WORKITEM item = IoAllocateWorkItem(NULL);
    KeInitializeEvent(&done, SynchronizationEvent, FALSE);
    for (int turn = 0; turn < 3; turn++) {
        IoQueueWorkItem(item, set_event, DelayedWorkQueue, &done);
        CHECK(wait_for(&done, 1000) == STATUS_SUCCESS);
    }
    IoFreeWorkItem(item);
}

/* ---- Memory ---- */
static void memory(void) {
    static const WCHAR text[] = L"abc";
    UNICODE_STRING string;
    UCHAR *bytes = ExAllocatePool2(POOL_FLAG_NON_PAGED, 16, 'tseT');
    CHECK(bytes && bytes[0] == 0 && bytes[15] == 0);
    ExFreePool(bytes);
    bytes = ExAllocatePoolWithTag(NonPagedPoolNx, 16, 'tseT');
    ExFreePoolWithTag(bytes, 'tseT');
    RtlInitUnicodeString(&string, text);
    CHECK(string.Length == 3 * sizeof(WCHAR) && string.MaximumLength == 4 * sizeof(WCHAR) &&
          string.Buffer[2] == 'c');
}

/* If each call fails that asks for memory, all three kinds do; and none does then. */
static void scarcity(void) {
    IocsqScarce(1);
    CHECK(!ExAllocatePool2(POOL_FLAG_NON_PAGED, 16, 'tseT') && !IoAllocateIrp(1, FALSE) &&
          !IoAllocateWorkItem(NULL));
    IocsqScarce(0);
    memory();
}

/* ---- A driver whose device is attached to another, and IRPs of its own ---- */
static PDEVICE_OBJECT lower, upper;
static PIRP kept; /* by the lower device */

static NTSTATUS NTAPI pass_or_keep(PDEVICE_OBJECT device, PIRP irp) {
    if (device == upper && IoGetCurrentIrpStackLocation(irp)->MajorFunction == IRP_MJ_READ) {
        IoCopyCurrentIrpStackLocationToNext(irp);
        return IoCallDriver(lower, irp);
    }
    if (IoGetCurrentIrpStackLocation(irp)->MajorFunction == IRP_MJ_READ) {
        IoMarkIrpPending(irp);
        kept = irp;
        return STATUS_PENDING;
    }
    irp->IoStatus.Status = STATUS_SUCCESS;
    irp->IoStatus.Information = 0;
    IoCompleteRequest(irp, IO_NO_INCREMENT);
    return STATUS_SUCCESS;
}

static VOID NTAPI unload(PDRIVER_OBJECT driver) {
    (void)driver;
    IoDetachDevice(lower);
    IoDeleteDevice(upper);
    IoDeleteDevice(lower);
}

static NTSTATUS NTAPI entry(PDRIVER_OBJECT driver, PUNICODE_STRING path) {
    static const UCHAR majors[] = { IRP_MJ_CREATE, IRP_MJ_CLOSE, IRP_MJ_CLEANUP, IRP_MJ_READ };
    (void)path;
    for (size_t at = 0; at < sizeof majors; at++) {
        driver->MajorFunction[majors[at]] = pass_or_keep;
    }
    driver->DriverUnload = unload;
    IoCreateDevice(driver, 0, NULL, FILE_DEVICE_UNKNOWN, 0, FALSE, &lower);
    IoCreateDevice(driver, 0, NULL, FILE_DEVICE_UNKNOWN, 0, FALSE, &upper);
    upper->Flags |= DO_BUFFERED_IO;
    return IoAttachDeviceToDeviceStack(upper, lower) == lower ? STATUS_SUCCESS
                                                              : STATUS_UNSUCCESSFUL;
}

static void complete_kept(NTSTATUS status) {
    kept->IoStatus.Status = status;
    kept->IoStatus.Information = 7;
    IoCompleteRequest(kept, IO_NO_INCREMENT);
}

/* A read that is passed on is pending above too, and its completion goes up. */
static void passed_on(PFILE_OBJECT file) {
    UCHAR bytes[8] = { '.', '.', '.', '.', '.', '.', '.', '.' };
    IOCSQ_REQUEST *read = IocsqSend(file, IRP_MJ_READ, bytes, sizeof bytes);
    CHECK(IocsqStatus(read) == STATUS_PENDING && kept->CurrentLocation == 1 &&
          kept->StackCount == 2);
    memcpy(kept->AssociatedIrp.SystemBuffer, "abcdefgh", sizeof bytes);
    CHECK(memcmp(bytes, "........", sizeof bytes) == 0); /* the system buffer is another */
    complete_kept(STATUS_SUCCESS);
    CHECK(IocsqStatus(read) == STATUS_SUCCESS && IocsqInformation(read) == 7);
    CHECK(memcmp(bytes, "abcdefg.", sizeof bytes) == 0);
    IocsqFree(read);
    CHECK(IocsqStatus(read = IocsqControl(file, 1, bytes, 1, 1)) == STATUS_INVALID_DEVICE_REQUEST);
    IocsqFree(read);
}

static NTSTATUS NTAPI keep(PDEVICE_OBJECT device, PIRP irp, PVOID context) {
    CHECK(device == NULL && irp->PendingReturned);
    *(NTSTATUS *)context = irp->IoStatus.Status;
    return STATUS_MORE_PROCESSING_REQUIRED;
}

/* An IRP of the driver's own, sent twice, and cancelled by who sent it where nobody has a cancel
 * routine. */
static void own_irps(void) {
    NTSTATUS got = STATUS_PENDING;
    PIRP irp = IoAllocateIrp(lower->StackSize, FALSE);
    for (int turn = 0; turn < 2; turn++) {
        IoGetNextIrpStackLocation(irp)->MajorFunction = IRP_MJ_READ;
        IoSetCompletionRoutine(irp, keep, &got, TRUE, TRUE, TRUE);
        CHECK(IoCallDriver(lower, irp) == STATUS_PENDING && !IoCancelIrp(irp) && irp->Cancel);
        complete_kept(STATUS_CANCELLED);
        CHECK(got == STATUS_CANCELLED);
        IoReuseIrp(irp, STATUS_SUCCESS);
        CHECK(!irp->Cancel);
    }
    IoFreeIrp(irp);
}

struct look {
    KEVENT done;
    LONG found;
};

static VOID NTAPI look_at_extension(PDEVICE_OBJECT device, PVOID context) {
    struct look *look = context;
    look->found = *(LONG *)device->DeviceExtension;
    KeSetEvent(&look->done, IO_NO_INCREMENT, FALSE);
}

/* A device that is deleted stays until its work item has run. */
static void deleted_with_work(PDRIVER_OBJECT driver) {
    struct look look = { .found = 0 };
    PDEVICE_OBJECT device;
    CHECK(IoCreateDevice(driver, sizeof look.found, NULL, FILE_DEVICE_UNKNOWN, 0, FALSE, &device) ==
          STATUS_SUCCESS);
    *(LONG *)device->DeviceExtension = 7;
    PIO_WORKITEM item = IoAllocateWorkItem(device);
    KeInitializeEvent(&look.done, NotificationEvent, FALSE);
    IoQueueWorkItem(item, look_at_extension, DelayedWorkQueue, &look);
    IoDeleteDevice(device);
    CHECK(wait_for(&look.done, 1000) == STATUS_SUCCESS && look.found == 7);
    IoFreeWorkItem(item);
}

static void devices(void) {
    PDRIVER_OBJECT driver = IocsqLoad(entry);
    PFILE_OBJECT file = IocsqOpen(driver), same = IocsqReferenceAny();
    CHECK(file && same == file);
    passed_on(same);
    IocsqRelease(same);
    IocsqHandOver(IocsqReferenceAny());
    passed_on(file);
    own_irps();
    deleted_with_work(driver);
    IocsqClose(file);
    IocsqUnload(driver);
}

/* ---- Two queues, and what goes back into them ---- */
struct line {
    IO_CSQ queue;
    LIST_ENTRY irps;
    KSPIN_LOCK lock;
    BOOLEAN full;
    LONG completed; /* as cancelled */
};
static struct line lines[2];

static struct line *line_of(PIO_CSQ csq) {
    return CONTAINING_RECORD(csq, struct line, queue);
}

static NTSTATUS NTAPI insert(PIO_CSQ csq, PIRP irp, PVOID front) {
    if (line_of(csq)->full) {
        return STATUS_INSUFFICIENT_RESOURCES;
    }
    (front ? InsertHeadList : InsertTailList)(&line_of(csq)->irps, &irp->Tail.Overlay.ListEntry);
    return STATUS_PENDING;
}

static int place(PIRP irp, PVOID front) {
    (void)irp;
    return front != NULL;
}

static VOID NTAPI take_out(PIO_CSQ csq, PIRP irp) {
    (void)csq;
    RemoveEntryList(&irp->Tail.Overlay.ListEntry);
}

static PIRP NTAPI peek(PIO_CSQ csq, PIRP irp, PVOID file) {
    PLIST_ENTRY head = &line_of(csq)->irps,
                entry = irp ? irp->Tail.Overlay.ListEntry.Flink : head->Flink;
    for (; entry != head; entry = entry->Flink) {
        PIRP next = CONTAINING_RECORD(entry, IRP, Tail.Overlay.ListEntry);
        if (!file || file == IoGetCurrentIrpStackLocation(next)->FileObject) {
            return next;
        }
    }
    return NULL;
}

static VOID NTAPI lock_line(PIO_CSQ csq, PKIRQL irql) {
    KeAcquireSpinLock(&line_of(csq)->lock, irql);
}

static VOID NTAPI unlock_line(PIO_CSQ csq, KIRQL irql) {
    KeReleaseSpinLock(&line_of(csq)->lock, irql);
}

static VOID finish(PIRP irp, NTSTATUS status) {
    irp->IoStatus.Status = status;
    irp->IoStatus.Information = 0;
    IoCompleteRequest(irp, IO_NO_INCREMENT);
}

static VOID NTAPI complete_cancelled(PIO_CSQ csq, PIRP irp) {
    line_of(csq)->completed++;
    finish(irp, STATUS_CANCELLED);
}

static NTSTATUS NTAPI queue_read(PDEVICE_OBJECT device, PIRP irp) {
    (void)device;
    if (IoGetCurrentIrpStackLocation(irp)->MajorFunction == IRP_MJ_READ) {
        return IoCsqInsertIrpEx(&lines[0].queue, irp, NULL, NULL);
    }
    finish(irp, STATUS_SUCCESS);
    return STATUS_SUCCESS;
}

static VOID NTAPI unload_lines(PDRIVER_OBJECT driver) {
    IoDeleteDevice(driver->DeviceObject);
}

static NTSTATUS NTAPI enter_lines(PDRIVER_OBJECT driver, PUNICODE_STRING path) {
    static const UCHAR majors[] = { IRP_MJ_CREATE, IRP_MJ_CLOSE, IRP_MJ_CLEANUP, IRP_MJ_READ };
    static const IOCSQ_POLICY policy = { .Place = place };
    (void)path;
    for (size_t at = 0; at < sizeof majors; at++) {
        driver->MajorFunction[majors[at]] = queue_read;
    }
    for (size_t at = 0; at < 2; at++) {
        struct line none = { .completed = 0 };
        lines[at] = none;
        InitializeListHead(&lines[at].irps);
        KeInitializeSpinLock(&lines[at].lock);
        IoCsqInitializeEx(&lines[at].queue, insert, take_out, peek, lock_line, unlock_line,
                          complete_cancelled);
        IocsqSetPolicy(&lines[at].queue, &policy);
    }
    driver->DriverUnload = unload_lines;
    return IoCreateDevice(driver, 0, NULL, FILE_DEVICE_UNKNOWN, 0, FALSE, &lower);
}

static NTSTATUS put(PIRP irp, int line, bool first) {
    return IoCsqInsertIrpEx(&lines[line].queue, irp, NULL, first ? lines : NULL);
}

static PIRP take(int line, PFILE_OBJECT file) {
    return IoCsqRemoveNextIrp(&lines[line].queue, file);
}

/* In front, last, refused and put back after that, and into the other queue. */
static void put_back_in_order(PIRP first) {
    PIRP second;
    CHECK(put(first, 0, true) == STATUS_PENDING && take(0, NULL) == first);
    CHECK(put(first, 0, false) == STATUS_PENDING);
    second = take(0, NULL);
    CHECK(second && second != first);
    lines[0].full = TRUE;
    CHECK(put(second, 0, true) == STATUS_INSUFFICIENT_RESOURCES && take(0, NULL) == first);
    lines[0].full = FALSE;
    CHECK(put(first, 0, true) == STATUS_PENDING && put(second, 0, true) == STATUS_PENDING);
    CHECK(take(0, NULL) == second && take(0, NULL) == first && take(0, NULL) == NULL);
    CHECK(put(second, 1, false) == STATUS_PENDING && put(first, 0, false) == STATUS_PENDING);
    CHECK(take(0, NULL) == first && take(1, NULL) == second &&
          put(second, 0, false) == STATUS_PENDING);
    CHECK(put(first, 0, true) == STATUS_PENDING);
}

/* A cancel finds no routine while the driver has the IRP: the put-back finds that cancel. One that
 * comes after a put-back finds the routine. */
static void cancel_round_a_put_back(IOCSQ_REQUEST *first, IOCSQ_REQUEST *second) {
    PIRP irp = take(0, NULL);
    CHECK(!IocsqCancel(first) && IocsqStatus(first) == STATUS_PENDING && lines[0].completed == 0);
    CHECK(put(irp, 0, true) == STATUS_PENDING && IocsqStatus(first) == STATUS_CANCELLED &&
          lines[0].completed == 1);
    irp = take(0, NULL);
    CHECK(put(irp, 0, true) == STATUS_PENDING && IocsqCancel(second) &&
          IocsqStatus(second) == STATUS_CANCELLED);
    CHECK(lines[0].completed == 2 && take(0, NULL) == NULL);
    IocsqFree(first);
    IocsqFree(second);
}

/* The driver files an IRP as it likes: this one goes back for another file object. */
static void put_back_elsewhere(IOCSQ_REQUEST *read, PFILE_OBJECT file, PFILE_OBJECT other) {
    PIRP irp = take(0, file);
    IoGetCurrentIrpStackLocation(irp)->FileObject = other;
    CHECK(put(irp, 0, false) == STATUS_PENDING && take(0, file) == NULL && take(0, other) == irp);
    IoGetCurrentIrpStackLocation(irp)->FileObject = file;
    finish(irp, STATUS_SUCCESS);
    CHECK(IocsqStatus(read) == STATUS_SUCCESS);
    IocsqFree(read);
}

static void put_backs(void) {
    PDRIVER_OBJECT driver = IocsqLoad(enter_lines);
    PFILE_OBJECT file = IocsqOpen(driver), other = IocsqOpen(driver);
    IOCSQ_REQUEST *first = IocsqSend(file, IRP_MJ_READ, NULL, 0),
                  *second = IocsqSend(file, IRP_MJ_READ, NULL, 0);
    put_back_in_order(take(0, NULL));
    cancel_round_a_put_back(first, second);
    put_back_elsewhere(IocsqSend(file, IRP_MJ_READ, NULL, 0), file, other);
    IocsqClose(file);
    IocsqClose(other);
    IocsqUnload(driver);
}

int main(int argc, char **argv) {
    begin(argc, argv);
    RUN(events);
    RUN(times);
    RUN(mutexes);
    RUN(several_objects);
    RUN(locks);
    RUN(remove_locks);
    RUN(timers_and_dpcs);
    RUN(work_items);
    RUN(memory);
    RUN(scarcity);
    RUN(devices);
    RUN(put_backs);
    return failures > 0;
}
