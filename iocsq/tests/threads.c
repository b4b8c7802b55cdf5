/* Threads, their stacks, and what they wait for that one of them has: threads [turns]. */
#include "check.h"
#include "traces.h"

#include <errno.h>

struct counted {
    KSPIN_LOCK lock;
    int threads;
};

static void *count_thread(void *context) {
    struct counted *counted = context;
    KIRQL before;
    KeAcquireSpinLock(&counted->lock, &before);
    counted->threads++;
    KeReleaseSpinLock(&counted->lock, before);
    return NULL;
}

/* Each has megabytes of stack, and an errno of its own. */
static void *use_stack(void *number) {
    volatile char deep[5 << 20];
    errno = deep[0] = *(char *)number;
    for (int turn = 0; turn < 50; turn++) {
        IocsqPause(1);
        CHECK(deep[0] == *(char *)number && errno == *(char *)number);
    }
    return NULL;
}

struct stacks {
    KEVENT there, checked;
    const void *of_other;
};

static void *show_stack(void *context) {
    struct stacks *stacks = context;
    stacks->of_other = __builtin_frame_address(0);
    KeSetEvent(&stacks->there, IO_NO_INCREMENT, FALSE);
    KeWaitForSingleObject(&stacks->checked, Executive, KernelMode, FALSE, NULL);
    return NULL;
}

/* An access to another thread's stack is checked as any other. */
static void *check_stacks(void *context) {
    struct stacks *stacks = context;
    KeWaitForSingleObject(&stacks->there, Executive, KernelMode, FALSE, NULL);
    CHECK(iocsq_is_own_stack(__builtin_frame_address(0)) &&
          !iocsq_is_own_stack(stacks->of_other));
    KeSetEvent(&stacks->checked, IO_NO_INCREMENT, FALSE);
    return NULL;
}

static void stacks(void) {
    struct stacks two = { .of_other = NULL };
    KeInitializeEvent(&two.there, NotificationEvent, FALSE);
    KeInitializeEvent(&two.checked, NotificationEvent, FALSE);
    IOCSQ_THREAD started[] = { IocsqThread(show_stack, &two), IocsqThread(check_stacks, &two) };
    IocsqJoinAll(started, 2);
}

/* Many more, one after another, than there may be at a time. */
static void threads(void) {
    struct counted counted = { .threads = 0 };
    KeInitializeSpinLock(&counted.lock);
    for (int at = 0; at < 1200; at++) {
        IocsqJoin(IocsqThread(count_thread, &counted));
    }
    CHECK(counted.threads == 1200);
    IOCSQ_THREAD ended = IocsqThread(count_thread, &counted);
    IocsqPause(1000);
    IOCSQ_THREAD other = IocsqThread(count_thread, &counted);
    CHECK(other != ended); /* which isn't joined yet */
    IocsqJoin(ended);
    IocsqJoin(other);
    IOCSQ_THREAD started[] = { IocsqThread(use_stack, "1"), IocsqThread(use_stack, "2") };
    IocsqJoinAll(started, 2);
}

/* A wait ends once no other thread has the resource, whichever thread asks whether it does. */
static void *use_resource(void *resource) {
    for (int turn = 0; turn < 50; turn++) {
        KeEnterCriticalRegion();
        CHECK(ExAcquireResourceExclusiveLite(resource, TRUE));
        IocsqPause(1);
        CHECK(ExIsResourceAcquiredExclusiveLite(resource));
        ExReleaseResourceLite(resource);
        KeLeaveCriticalRegion();
    }
    return NULL;
}

static void resources(void) {
    static ERESOURCE resource;
    ExInitializeResourceLite(&resource);
    IOCSQ_THREAD started[] = { IocsqThread(use_resource, &resource),
                               IocsqThread(use_resource, &resource) };
    IocsqJoinAll(started, 2);
    ExDeleteResourceLite(&resource);
}

int main(int argc, char **argv) {
    begin(argc, argv);
    RUN(threads);
    RUN(stacks);
    RUN(resources);
    return failures > 0;
}
