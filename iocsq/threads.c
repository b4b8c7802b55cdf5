/* Threads of the driver, and references to what drivers refer to: threads, file objects,
 * devices. */
#define _GNU_SOURCE
#include "internal.h"

#include <stdlib.h>

enum { THREAD = 6 }; /* a header's type */

/* The state's lock is held for the references, the handle and the list. */
struct thread_object {
    DISPATCHER_HEADER header; /* signaled once the thread has ended */
    IOCSQ_THREAD thread;
    PKSTART_ROUTINE start;
    PVOID context;
    LONG references; /* of the driver */
    bool open;       /* its handle */
    struct thread_object *next;
};
static struct thread_object *thread_objects;

static POBJECT_TYPE thread_type;
POBJECT_TYPE *PsThreadType = &thread_type;

/* The object whose address or handle it is. Null: none. */
static struct thread_object *thread_at(const void *object) {
    struct thread_object *at = thread_objects;
    while (at && (const void *)at != object) {
        at = at->next;
    }
    return at;
}

static void end_thread(struct thread_object *object) {
    iocsq_point();
    iocsq_lock_state_for(&object->header, IOCSQ_CHANGES | IOCSQ_RELEASES);
    object->header.SignalState = 1;
    iocsq_state_changed();
    iocsq_unlock_state();
}

static void *run_thread(void *object) {
    iocsq_own.system_thread = object;
    iocsq_own.during = "its StartRoutine";
    iocsq_own.system_thread->start(iocsq_own.system_thread->context);
    end_thread(iocsq_own.system_thread);
    return NULL;
}

NTSTATUS NTAPI PsCreateSystemThread(PHANDLE ThreadHandle, ULONG DesiredAccess,
                                    POBJECT_ATTRIBUTES ObjectAttributes, HANDLE ProcessHandle,
                                    PCLIENT_ID ClientId, PKSTART_ROUTINE StartRoutine,
                                    PVOID StartContext) {
    (void)DesiredAccess, (void)ObjectAttributes, (void)ProcessHandle, (void)ClientId;
    iocsq_expect_irql(PASSIVE_LEVEL, "PsCreateSystemThread");
    struct thread_object *object = calloc(1, sizeof *object);
    if (!object) {
        return STATUS_INSUFFICIENT_RESOURCES;
    }
    iocsq_begin_header(&object->header, THREAD, 0);
    object->start = StartRoutine;
    object->context = StartContext;
    object->open = true;
    iocsq_lock_state_for(&thread_objects, IOCSQ_CHANGES);
    object->next = thread_objects;
    thread_objects = object;
    iocsq_unlock_state();
    object->thread = IocsqThread(run_thread, object);
    *ThreadHandle = object;
    return STATUS_SUCCESS;
}

NTSTATUS NTAPI PsTerminateSystemThread(NTSTATUS ExitStatus) {
    (void)ExitStatus;
    iocsq_expect_irql(PASSIVE_LEVEL, "PsTerminateSystemThread");
    if (!iocsq_own.system_thread) {
        iocsq_disagree(NULL, "PsTerminateSystemThread by a thread that isn't the driver's");
    }
    end_thread(iocsq_own.system_thread);
    iocsq_end_turns_of_thread();
    iocsq_end_thread();
}

PKTHREAD NTAPI KeGetCurrentThread(VOID) {
    return (PKTHREAD)(uintptr_t)iocsq_thread();
}

KPRIORITY NTAPI KeSetPriorityThread(PKTHREAD Thread, KPRIORITY Priority) {
    (void)Thread, (void)Priority;
    return 0;
}

/* ---- Handles and references ---- */
static struct thread_object *thread_of_handle(HANDLE handle, const char *call) {
    iocsq_expect_irql(PASSIVE_LEVEL, call);
    iocsq_lock_state_for(&thread_objects, IOCSQ_CHANGES);
    struct thread_object *object = thread_at(handle);
    if (!object || !object->open) {
        iocsq_disagree(NULL, "%s of a handle that isn't open", call);
    }
    return object;
}

NTSTATUS NTAPI ObReferenceObjectByHandle(HANDLE Handle, ACCESS_MASK DesiredAccess,
                                         POBJECT_TYPE ObjectType, KPROCESSOR_MODE AccessMode,
                                         PVOID *Object, PVOID HandleInformation) {
    (void)DesiredAccess, (void)ObjectType, (void)AccessMode, (void)HandleInformation;
    struct thread_object *object = thread_of_handle(Handle, "ObReferenceObjectByHandle");
    object->references++;
    iocsq_unlock_state();
    *Object = object;
    return STATUS_SUCCESS;
}

NTSTATUS NTAPI ZwClose(HANDLE Handle) {
    struct thread_object *object = thread_of_handle(Handle, "ZwClose");
    object->open = false;
    iocsq_unlock_state();
    return STATUS_SUCCESS;
}

static bool reference_thread(PVOID object, int change) {
    struct thread_object *of = thread_at(object);
    if (of) {
        of->references += change;
        if (of->references < 0) {
            iocsq_disagree(NULL,
                           "ObDereferenceObject of a thread, more often than it was referenced");
        }
    }
    return of != NULL;
}

static void reference(PVOID object, int change, const char *call) {
    iocsq_expect_irql(DISPATCH_LEVEL, call);
    iocsq_point();
    iocsq_lock_state_for(object, IOCSQ_CHANGES | IOCSQ_RELEASES);
    iocsq_touch(&thread_objects, IOCSQ_LOOKS);
    if (!reference_thread(object, change) && !iocsq_reference_file(object, change) &&
        !iocsq_reference_device(object, change)) {
        iocsq_disagree(NULL, "%s of %p, which is no thread, file object or device", call, object);
    }
    iocsq_unlock_state();
}

VOID IocsqReferenceObject(PVOID Object) {
    reference(Object, 1, "ObReferenceObject");
}

VOID IocsqDereferenceObject(PVOID Object) {
    reference(Object, -1, "ObDereferenceObject");
}

/* After the driver was unloaded: its threads have ended by then, and nothing refers to them. */
static void check_thread(const struct thread_object *object) {
    iocsq_lock_state_for(&object->header, IOCSQ_LOOKS | IOCSQ_ACQUIRES);
    const char *left = object->header.SignalState <= 0 ? "a thread of it has not ended"
                       : object->references > 0 ? "a reference to a thread of it was never dropped"
                       : object->open           ? "a handle of a thread of it was never closed"
                                                : NULL;
    iocsq_unlock_state();
    if (left) {
        iocsq_disagree(NULL, "the driver was unloaded, and %s", left);
    }
}

void iocsq_join_threads(void) {
    while (thread_objects) {
        struct thread_object *object = thread_objects;
        check_thread(object);
        thread_objects = object->next;
        IocsqJoin(object->thread);
        free(object);
    }
}
