/* What stands for the kernel beside what kernel.c tests, call by call: names [turns]. */
#include "check.h"

/* ---- Times ---- */
static void times(void) {
    LARGE_INTEGER before, after, wait, frequency;
    KTIMER timer;
    ULONGLONG interrupt = KeQueryInterruptTime();
    KeQuerySystemTime(&before);
    KeStallExecutionProcessor(1);
    wait.QuadPart = before.QuadPart + 20000; /* an absolute time, in two milliseconds */
    KeInitializeTimer(&timer);
    KeSetTimer(&timer, wait, NULL);
    CHECK(KeWaitForSingleObject(&timer, Executive, KernelMode, FALSE, NULL) == STATUS_SUCCESS);
    KeQuerySystemTime(&after);
    CHECK(after.QuadPart >= wait.QuadPart && KeQueryInterruptTime() >= interrupt + 20000);
    CHECK(KeDelayExecutionThread(KernelMode, FALSE, &before) == STATUS_SUCCESS); /* which is over */
    KeQueryTickCount(&before);
    CHECK(before.QuadPart >= 0 && KeQueryTimeIncrement() > 0);
    CHECK(KeQueryPerformanceCounter(&frequency).QuadPart > 0 && frequency.QuadPart == 10000000);
    KeQuerySystemTime(&before);
    while (after.QuadPart < before.QuadPart + 20000) { /* a driver that only asks for the time */
        KeQuerySystemTime(&after);
    }
}

/* ---- Numbers, strings, memory ---- */
static void words(void) {
    static const UNICODE_STRING string = RTL_CONSTANT_STRING(L"abc");
    LARGE_INTEGER number = { .QuadPart = -2 };
    LONG bits = 0x0c;
    LONG64 wide = 1;
    PVOID pointer = NULL;
    CHECK(string.Length == 3 * sizeof(WCHAR) && string.MaximumLength == 4 * sizeof(WCHAR));
    CHECK(number.LowPart == 0xfffffffe && number.HighPart == -1 && number.u.HighPart == -1);
    CHECK(InterlockedOr(&bits, 1) == 0x0c && InterlockedAnd(&bits, 5) == 0x0d &&
          InterlockedXor(&bits, 1) == 5);
    CHECK(InterlockedIncrement64(&wide) == 2 && InterlockedExchangeAdd64(&wide, 3) == 2);
    CHECK(bits == 4 && InterlockedAdd(&bits, 1) == 5);
    CHECK(InterlockedCompareExchange64(&wide, 7, 5) == 5 && wide == 7);
    CHECK(InterlockedCompareExchangePointer(&pointer, &bits, NULL) == NULL && pointer == &bits);
    CHECK(RtlCompareMemory("abcd", "abxd", 4) == 2 && RtlEqualMemory("abcd", "abcd", 4));
    CHECK(METHOD_FROM_CTL_CODE(
              CTL_CODE(FILE_DEVICE_UNKNOWN, 0x801, METHOD_OUT_DIRECT, FILE_READ_DATA)) == 2);
}

static void flags_and_bits(void) {
    struct { ULONG first; UCHAR second[3]; } pair;
    ULONG flags = 5;
    LONG bits = 4, at = 1;
    LONG64 wide = -3;
    PVOID pointer = &bits;
    CHECK(FlagOn(flags, 4) && BooleanFlagOn(flags, 4) == TRUE && !FlagOn(flags, 2));
    CHECK(SetFlag(flags, 2U) == 7 && ClearFlag(flags, 5U) == 2);
    CHECK(Int32x32To64(-2, 0x40000000) == -0x80000000LL);
    CHECK(UInt32x32To64(0xffffffff, 2) == 0x1fffffffeULL && MAXULONG_PTR + 1 == 0);
    CHECK(RTL_FIELD_SIZE(struct _GUID, Data4) == 8 && sizeof pair.second == 3);
    CHECK(RTL_SIZEOF_THROUGH_FIELD(struct _GUID, Data3) == 8);
    CHECK(!InterlockedBitTestAndSet(&bits, at) && InterlockedBitTestAndSet(&bits, at) && bits == 6);
    CHECK(InterlockedBitTestAndReset(&bits, 2) && bits == 2);
    CHECK(!InterlockedBitTestAndSet(&bits, 31) && bits < 0);
    CHECK(InterlockedIncrementAcquire(&at) == 2 && InterlockedDecrementRelease(&at) == 1);
    WriteRelease(&at, 9);
    WriteNoFence64(&wide, 8);
    CHECK(ReadAcquire(&at) == 9 && ReadNoFence64(&wide) == 8);
    WritePointerRelease(&pointer, NULL);
    CHECK(ReadPointerAcquire(&pointer) == NULL);
    CHECK(InterlockedCompareExchangeNoFence(&at, 1, 9) == 9 && at == 1);
    YieldProcessor();
}

static void threads_and_levels(void) {
    KIRQL before = KeRaiseIrqlToDpcLevel();
    CHECK(before == PASSIVE_LEVEL && KeGetCurrentIrql() == DISPATCH_LEVEL);
    KeLowerIrql(before);
    CHECK(KeGetCurrentProcessorNumber() == 0 && PsGetCurrentProcessId() != NULL);
    CHECK(PsGetCurrentThreadId() == (HANDLE)PsGetCurrentThread());
}

/* ---- The pool ---- */
static bool all_are(const UCHAR *bytes, UCHAR value) {
    return bytes && bytes[0] == value && bytes[7] == value;
}

static void pools(void) {
    PUCHAR zeros = ExAllocatePoolZero(NonPagedPoolNx, 8, 'tseT');
    PUCHAR others = ExAllocatePool(PagedPool, 8);
    PUCHAR flagged = ExAllocatePool2(POOL_FLAG_NON_PAGED | POOL_FLAG_UNINITIALIZED, 8, 'tseT');
    CHECK(all_are(zeros, 0) && all_are(others, others[0]) && others[0] != 0);
    CHECK(flagged && flagged[0] != 0);
    RtlCopyBytes(others, zeros, 8);
    RtlSecureZeroMemory(flagged, 8);
    CHECK(all_are(others, 0) && all_are(flagged, 0));
    ExFreePool(others);
    ExFreePool2(flagged, 'tseT', NULL, 0);
    ExFreePoolWithTag(zeros, 'tseT');
    IocsqScarce(1);
    PUCHAR raised = ExAllocatePoolWithQuotaTag(NonPagedPoolNx, 8, 'tseT');
    POOL_TYPE fails = (POOL_TYPE)(PagedPool | POOL_QUOTA_FAIL_INSTEAD_OF_RAISE);
    CHECK(raised && !ExAllocatePoolWithQuotaTag(fails, 8, 'tseT'));
    CHECK(!ExAllocatePoolZero(PagedPool, 8, 'tseT') &&
          !ExAllocatePoolUninitialized(PagedPool, 8, 'tseT'));
    IocsqScarce(0);
    ExFreePool(raised);
}

/* ---- Lists and locks ---- */
static void lists(void) {
    SINGLE_LIST_ENTRY singles = { NULL }, single;
    LIST_ENTRY head, first, second;
    KSPIN_LOCK lock;
    InitializeListHead(&head);
    KeInitializeSpinLock(&lock);
    CHECK(ExInterlockedInsertTailList(&head, &second, &lock) == NULL);
    CHECK(ExInterlockedInsertHeadList(&head, &first, &lock) == &second);
    CHECK(ExInterlockedRemoveHeadList(&head, &lock) == &first &&
          ExInterlockedRemoveHeadList(&head, &lock) == &second);
    CHECK(ExInterlockedRemoveHeadList(&head, &lock) == NULL && KeGetCurrentIrql() == PASSIVE_LEVEL);
    PushEntryList(&singles, &single);
    CHECK(PopEntryList(&singles) == &single && PopEntryList(&singles) == NULL);
}

/* Hand over hand: the lock that was taken first is left first, and each release is given the
 * other's IRQL. */
static void locks_in_either_order(void) {
    KSPIN_LOCK first, second;
    KLOCK_QUEUE_HANDLE outer, inner;
    KIRQL to_passive, to_dispatch;
    KeInitializeSpinLock(&first);
    KeInitializeSpinLock(&second);
    KeAcquireSpinLock(&first, &to_passive);
    KeAcquireSpinLock(&second, &to_dispatch);
    CHECK(!KeTestSpinLock(&first));
    KeReleaseSpinLock(&first, to_dispatch);
    CHECK(KeTestSpinLock(&first) && KeGetCurrentIrql() == DISPATCH_LEVEL);
    KeReleaseSpinLock(&second, to_passive);
    KeAcquireInStackQueuedSpinLock(&first, &outer);
    KeAcquireInStackQueuedSpinLockAtDpcLevel(&second, &inner);
    KeReleaseInStackQueuedSpinLockFromDpcLevel(&inner);
    CHECK(KeTryToAcquireSpinLockAtDpcLevel(&second));
    KeReleaseSpinLockFromDpcLevel(&second);
    KeReleaseInStackQueuedSpinLock(&outer);
    CHECK(KeGetCurrentIrql() == PASSIVE_LEVEL);
    KeRaiseIrql(DISPATCH_LEVEL, &to_passive); /* and with the level lowered apart from the lock */
    KeAcquireSpinLock(&first, &to_dispatch);
    KeReleaseSpinLock(&first, to_dispatch);
    KeAcquireSpinLock(&first, &to_dispatch);
    KeReleaseSpinLockFromDpcLevel(&first);
    KeLowerIrql(to_passive);
}

static void mutexes(void) {
    KGUARDED_MUTEX guarded;
    FAST_MUTEX fast;
    KMUTEX mutex;
    KSEMAPHORE semaphore;
    KeInitializeGuardedMutex(&guarded);
    KeAcquireGuardedMutex(&guarded);
    CHECK(KeGetCurrentIrql() == PASSIVE_LEVEL);
    KeReleaseGuardedMutex(&guarded);
    ExInitializeFastMutex(&fast);
    CHECK(ExTryToAcquireFastMutex(&fast) && KeGetCurrentIrql() == APC_LEVEL);
    ExReleaseFastMutex(&fast);
    KeInitializeMutex(&mutex, 0);
    KeInitializeSemaphore(&semaphore, 3, 4);
    CHECK(KeReadStateMutex(&mutex) == 1 && KeReadStateSemaphore(&semaphore) == 3);
}

/* ---- Resources, lists without a lock, timers, interrupts ---- */
static void resources(void) {
    ERESOURCE resource;
    CHECK(ExInitializeResourceLite(&resource) == STATUS_SUCCESS);
    CHECK(ExAcquireResourceSharedLite(&resource, TRUE) &&
          ExAcquireResourceSharedLite(&resource, FALSE));
    CHECK(ExIsResourceAcquiredSharedLite(&resource) == 2 &&
          !ExAcquireResourceExclusiveLite(&resource, FALSE));
    ExReleaseResourceLite(&resource);
    ExReleaseResourceLite(&resource);
    CHECK(ExIsResourceAcquiredSharedLite(&resource) == 0);
    CHECK(ExAcquireResourceExclusiveLite(&resource, FALSE) &&
          ExAcquireResourceSharedLite(&resource, TRUE));
    CHECK(ExIsResourceAcquiredExclusiveLite(&resource) && ExIsResourceAcquiredLite(&resource) == 2);
    ExConvertExclusiveToSharedLite(&resource);
    CHECK(!ExIsResourceAcquiredExclusiveLite(&resource));
    ExReleaseResourceLite(&resource);
    ExReleaseResourceLite(&resource);
    CHECK(ExDeleteResourceLite(&resource) == STATUS_SUCCESS);
}

static void lists_without_a_lock(void) {
    SINGLE_LIST_ENTRY singles = { NULL }, single;
    SLIST_HEADER head;
    SLIST_ENTRY first, second;
    KSPIN_LOCK lock;
    KeInitializeSpinLock(&lock);
    ExInitializeSListHead(&head);
    CHECK(InterlockedPushEntrySList(&head, &first) == NULL &&
          ExInterlockedPushEntrySList(&head, &second, &lock) == &first);
    CHECK(ExQueryDepthSList(&head) == 2 && ExInterlockedPopEntrySList(&head, &lock) == &second);
    CHECK(InterlockedFlushSList(&head) == &first && !InterlockedPopEntrySList(&head));
    CHECK(ExInterlockedPushEntryList(&singles, &single, &lock) == NULL);
    CHECK(ExInterlockedPopEntryList(&singles, &lock) == &single &&
          ExInterlockedPopEntryList(&singles, &lock) == NULL);
}

static _Atomic int calls;
static VOID NTAPI count_call(PEX_TIMER timer, PVOID context) {
    (void)timer, (void)context;
    calls++;
}
static VOID NTAPI count_deletion(PVOID context) {
    (void)context;
    calls += 10;
}

static void timers_of_the_executive(void) {
    EXT_DELETE_PARAMETERS at_end;
    PEX_TIMER timer = ExAllocateTimer(count_call, NULL, EX_TIMER_HIGH_RESOLUTION);
    ExInitializeDeleteTimerParameters(&at_end);
    at_end.DeleteCallback = count_deletion;
    CHECK(!ExSetTimer(timer, -5 * 10000, 0, NULL) && ExSetTimer(timer, -10000, 0, NULL));
    CHECK(KeWaitForSingleObject(timer, Executive, KernelMode, FALSE, NULL) == STATUS_SUCCESS);
    KeFlushQueuedDpcs();
    CHECK(calls == 1 && !ExCancelTimer(timer, NULL));
    ExSetTimer(timer, -1000 * 10000, 0, NULL);
    CHECK(ExCancelTimer(timer, NULL) && !ExDeleteTimer(timer, TRUE, TRUE, &at_end) && calls == 11);
    timer = ExAllocateTimer(count_call, NULL, 0);
    ExSetTimer(timer, -10000, 0, NULL);
    ExDeleteTimer(timer, FALSE, FALSE, &at_end); /* it expires once more, and is deleted then */
    while (calls != 22) {
        IocsqPause(1000);
    }
}

static BOOLEAN NTAPI serve(PKINTERRUPT interrupt, PVOID context) {
    (void)interrupt;
    ++*(int *)context;
    return KeGetCurrentIrql() == 6;
}
static BOOLEAN NTAPI read_served(PVOID context) {
    return KeGetCurrentIrql() == 6 && *(int *)context == 2;
}

static void interrupts(void) {
    PKINTERRUPT interrupt;
    int served = 0;
    CHECK(!IocsqInterrupt(0));
    CHECK(IoConnectInterrupt(&interrupt, serve, &served, NULL, 1, 5, 6, Latched, FALSE, 1, FALSE) ==
          STATUS_SUCCESS);
    CHECK(IocsqInterrupt(0) && IocsqInterrupt(0) && !IocsqInterrupt(1));
    CHECK(KeSynchronizeExecution(interrupt, read_served, &served));
    KIRQL before = KeAcquireInterruptSpinLock(interrupt);
    CHECK(before == PASSIVE_LEVEL && KeGetCurrentIrql() == 6);
    KeReleaseInterruptSpinLock(interrupt, before);
    IoDisconnectInterrupt(interrupt);
    CHECK(!IocsqInterrupt(0) && served == 2 && KeGetCurrentIrql() == PASSIVE_LEVEL);
}

static _Atomic int worked;
static VOID NTAPI work_ex(PVOID object, PVOID context, PIO_WORKITEM item) {
    worked += object == NULL && context == &worked ? 1 : 100;
    IoFreeWorkItem(item);
}
static VOID NTAPI work_of_executive(PVOID context) {
    worked += KeGetCurrentIrql() == PASSIVE_LEVEL && context == &worked ? 10 : 100;
}

static void work_items(void) {
    WORK_QUEUE_ITEM of_executive;
    PIO_WORKITEM item = IoAllocateWorkItem(NULL);
    CHECK(IoTryQueueWorkItem(item, work_ex, DelayedWorkQueue, (PVOID)&worked));
    ExInitializeWorkItem(&of_executive, work_of_executive, (PVOID)&worked);
    ExQueueWorkItem(&of_executive, DelayedWorkQueue);
    while (worked != 11) {
        IocsqPause(1000);
    }
    CHECK(of_executive.List.Flink == NULL);
}

static void device_queues(void) {
    KDEVICE_QUEUE queue;
    KDEVICE_QUEUE_ENTRY entries[5] = { { .Inserted = TRUE } };
    KIRQL before = KeRaiseIrqlToDpcLevel();
    KeInitializeDeviceQueue(&queue);
    CHECK(!KeInsertDeviceQueue(&queue, &entries[0]) && !entries[0].Inserted && queue.Busy);
    CHECK(KeInsertByKeyDeviceQueue(&queue, &entries[1], 7) &&
          KeInsertByKeyDeviceQueue(&queue, &entries[2], 3) &&
          KeInsertByKeyDeviceQueue(&queue, &entries[3], 7) &&
          KeInsertDeviceQueue(&queue, &entries[4]));
    CHECK(!KeRemoveEntryDeviceQueue(&queue, &entries[0]));
    CHECK(KeRemoveByKeyDeviceQueue(&queue, 4) == &entries[1]);
    CHECK(KeRemoveEntryDeviceQueue(&queue, &entries[4]) && !entries[4].Inserted);
    CHECK(KeRemoveByKeyDeviceQueue(&queue, 8) == &entries[2]); /* none is as high: the first */
    CHECK(KeRemoveDeviceQueue(&queue) == &entries[3] && queue.Busy);
    CHECK(KeRemoveDeviceQueue(&queue) == NULL && !queue.Busy);
    KeLowerIrql(before);
}

/* ---- Memory, protection, names ---- */
static void lookaside_lists(void) {
    NPAGED_LOOKASIDE_LIST list;
    PAGED_LOOKASIDE_LIST paged;
    ExInitializeNPagedLookasideList(&list, NULL, NULL, 0, 24, 'tseT', 0);
    ExInitializePagedLookasideList(&paged, ExAllocatePoolWithTag, ExFreePool, 0, 8, 'tseT', 0);
    PVOID entry = ExAllocateFromNPagedLookasideList(&list),
          other = ExAllocateFromPagedLookasideList(&paged);
    CHECK(entry && other);
    ExFreeToPagedLookasideList(&paged, other);
    ExFreeToNPagedLookasideList(&list, entry);
    ExDeletePagedLookasideList(&paged);
    ExDeleteNPagedLookasideList(&list);
}

static void rundown_protection(void) {
    EX_RUNDOWN_REF rundown;
    ExInitializeRundownProtection(&rundown);
    for (int turn = 0; turn < 2; turn++) {
        CHECK(ExAcquireRundownProtection(&rundown));
        ExReleaseRundownProtection(&rundown);
        ExWaitForRundownProtectionRelease(&rundown);
        CHECK(!ExAcquireRundownProtection(&rundown));
        ExRundownCompleted(&rundown);
        ExReInitializeRundownProtection(&rundown);
    }
}

static void symbolic_links(void) {
    UNICODE_STRING link = RTL_CONSTANT_STRING(L"\\DosDevices\\A"),
                   device = RTL_CONSTANT_STRING(L"\\Device\\A");
    CHECK(IoCreateSymbolicLink(&link, &device) == STATUS_SUCCESS);
    CHECK(IoCreateSymbolicLink(&link, &device) == STATUS_OBJECT_NAME_COLLISION);
    CHECK(IoDeleteSymbolicLink(&link) == STATUS_SUCCESS &&
          IoDeleteSymbolicLink(&link) == STATUS_OBJECT_NAME_NOT_FOUND);
}

/* ---- Buffers, as the device's flags and the control codes have them ---- */
#define CODE(method) CTL_CODE(FILE_DEVICE_UNKNOWN, 0x801, method, FILE_ANY_ACCESS)
static PDEVICE_OBJECT device;
static bool has_buffer, has_mdl;

/* Notes what there is, and answers with an X. */
static NTSTATUS NTAPI answer(PDEVICE_OBJECT of, PIRP irp) {
    PUCHAR system = irp->AssociatedIrp.SystemBuffer;
    PUCHAR bytes = irp->MdlAddress
                       ? MmGetSystemAddressForMdlSafe(irp->MdlAddress, NormalPagePriority)
                       : system;
    (void)of;
    has_buffer = system != NULL;
    has_mdl = irp->MdlAddress != NULL;
    if (bytes) {
        bytes[0] = 'X';
    }
    irp->IoStatus.Status = STATUS_SUCCESS;
    irp->IoStatus.Information = bytes ? 1 : 0;
    IoCompleteRequest(irp, IO_NO_INCREMENT);
    return STATUS_SUCCESS;
}

static VOID NTAPI unload(PDRIVER_OBJECT driver) {
    ObReferenceObject(driver->DeviceObject);
    ObDereferenceObject(driver->DeviceObject);
    IoDeleteDevice(driver->DeviceObject);
}

static NTSTATUS NTAPI entry(PDRIVER_OBJECT driver, PUNICODE_STRING path) {
    (void)path;
    for (size_t at = 0; at < ARRAYSIZE(driver->MajorFunction); at++) {
        driver->MajorFunction[at] = answer;
    }
    driver->DriverUnload = unload;
    return IoCreateDevice(driver, 0, NULL, FILE_DEVICE_UNKNOWN, 0, FALSE, &device);
}

static const struct way {
    ULONG flags, code; /* a read with these flags, or a control where there is a code */
    bool buffer, mdl, answered;
} ways[] = {
    { DO_BUFFERED_IO, 0, true, false, true },
    { DO_DIRECT_IO, 0, false, true, true },
    { 0, 0, false, false, false },
    { 0, CODE(METHOD_BUFFERED), true, false, true },
    { 0, CODE(METHOD_IN_DIRECT), true, true, true },
    { DO_BUFFERED_IO, CODE(METHOD_OUT_DIRECT), true, true, true },
    { DO_BUFFERED_IO, CODE(METHOD_NEITHER), false, false, false },
};

static void buffers(void) {
    PDRIVER_OBJECT driver = IocsqLoad(entry);
    PFILE_OBJECT file = IocsqOpen(driver);
    for (size_t at = 0; at < ARRAYSIZE(ways); at++) {
        const struct way *way = &ways[at];
        UCHAR bytes[4] = { 0, 0, 0, 0 };
        device->Flags = way->flags;
        IOCSQ_REQUEST *sent = way->code ? IocsqControl(file, way->code, bytes, 2, 4)
                                        : IocsqSend(file, IRP_MJ_READ, bytes, 4);
        CHECK(has_buffer == way->buffer && has_mdl == way->mdl &&
              (bytes[0] == 'X') == way->answered);
        IocsqFree(sent);
    }
    ObReferenceObject(file);
    ObDereferenceObject(file);
    IocsqClose(file);
    IocsqUnload(driver);
}

int main(int argc, char **argv) {
    begin(argc, argv);
    RUN(times);
    RUN(words);
    RUN(flags_and_bits);
    RUN(threads_and_levels);
    RUN(pools);
    RUN(lists);
    RUN(locks_in_either_order);
    RUN(mutexes);
    RUN(resources);
    RUN(lists_without_a_lock);
    RUN(timers_of_the_executive);
    RUN(interrupts);
    RUN(work_items);
    RUN(device_queues);
    RUN(lookaside_lists);
    RUN(rundown_protection);
    RUN(symbolic_links);
    RUN(buffers);
    return failures > 0;
}
