/* The framework's objects: their handles, contexts and parents, and how they end. */
#include "wdfobjects.h"
#include "queues.h"

#include <stdlib.h>

static struct iocsq_wdf_object *objects; /* all but requests, under the state's lock */

static const char *const kind_names[] = {
    [IOCSQ_WDF_DRIVER] = "WDFDRIVER",   [IOCSQ_WDF_DEVICE] = "WDFDEVICE",
    [IOCSQ_WDF_QUEUE] = "WDFQUEUE",     [IOCSQ_WDF_REQUEST] = "WDFREQUEST",
    [IOCSQ_WDF_FILE] = "WDFFILEOBJECT", [IOCSQ_WDF_LOCK] = "WDFSPINLOCK",
    [IOCSQ_WDF_TIMER] = "WDFTIMER",     [IOCSQ_WDF_DPC] = "WDFDPC",
    [IOCSQ_WDF_ITEM] = "WDFWORKITEM"
};

void iocsq_touch_framework(void) {
    iocsq_touch(&objects, IOCSQ_SYNC);
}

void iocsq_lock_framework(void) {
    iocsq_lock_state_for(NULL, 0);
    iocsq_touch_framework();
}

/* ---- Handles ---- */
static struct iocsq_wdf_object *object_of(const void *handle) {
    iocsq_lock_state_for(&objects, IOCSQ_LOOKS);
    struct iocsq_wdf_object *at = objects;
    while (at && (const void *)at != handle) {
        at = at->next;
    }
    iocsq_unlock_state();
    return at;
}

static bool is_request(const void *handle) {
    return (uintptr_t)handle & 1;
}

void *iocsq_wdf_known(const void *handle, enum iocsq_wdf_kind kind, const char *call) {
    struct iocsq_wdf_object *object = object_of(handle);
    if (!object || object->kind != kind) {
        iocsq_disagree(NULL, "%s with a handle that is no %s, or that was deleted", call,
                       kind_names[kind]);
    }
    return object;
}

/* Of any kind: a request also once it was completed, while it is referenced. */
static struct iocsq_wdf_object *any_object(WDFOBJECT handle, const char *call) {
    struct iocsq_irp *irp = NULL;
    struct iocsq_wdf_object *object;
    if (is_request(handle)) {
        struct iocsq_wdf_request *r = iocsq_wdf_find((WDFREQUEST)handle, call, &irp);
        object = r ? &r->object : NULL;
    } else {
        object = object_of(handle);
    }
    if (!object && irp) {
        iocsq_disagree(NULL, "%s of irp %u, which was completed", call, irp->index);
    }
    if (!object) {
        iocsq_disagree(NULL, "%s of a handle that is no object, or that was deleted", call);
    }
    return object;
}

struct iocsq_wdf_device *iocsq_wdf_device_above(const struct iocsq_wdf_object *object) {
    while (object && object->kind != IOCSQ_WDF_DEVICE) {
        object = object->parent;
    }
    return (struct iocsq_wdf_device *)(uintptr_t)object;
}

/* ---- Callbacks ---- */
struct iocsq_wdf_entry iocsq_wdf_enter(void) {
    struct iocsq_wdf_entry entry = { iocsq_lock_count(), KeGetCurrentIrql() };
    return entry;
}

void iocsq_wdf_leave(struct iocsq_wdf_entry entry, const char *callback) {
    if (iocsq_lock_count() != entry.locks) {
        iocsq_disagree(NULL, "%s returns with a lock that it took, or without one that it had",
                       callback);
    }
    if (KeGetCurrentIrql() != entry.irql) {
        iocsq_disagree(NULL, "%s returns at IRQL %u, and was called at %u", callback,
                       KeGetCurrentIrql(), entry.irql);
    }
}

/* ---- Beginning ---- */
/* What changes how a driver is called, and isn't here, would make false reports. */
static void expect_plain(const WDF_OBJECT_ATTRIBUTES *attributes) {
    if (attributes->ExecutionLevel == WdfExecutionLevelPassive) {
        iocsq_fail("WdfExecutionLevelPassive isn't here");
    }
    if (attributes->SynchronizationScope == WdfSynchronizationScopeDevice ||
        attributes->SynchronizationScope == WdfSynchronizationScopeQueue) {
        iocsq_fail("WdfSynchronizationScopeDevice and WdfSynchronizationScopeQueue aren't here");
    }
}

static size_t context_size(const WDF_OBJECT_ATTRIBUTES *attributes) {
    size_t size = attributes->ContextTypeInfo ? attributes->ContextTypeInfo->ContextSize : 0;
    return attributes->ContextSizeOverride > size ? attributes->ContextSizeOverride : size;
}

static void add_object(struct iocsq_wdf_object *object) {
    iocsq_lock_framework();
    object->next = objects;
    objects = object;
    iocsq_unlock_state();
}

void *iocsq_wdf_make(enum iocsq_wdf_kind kind, size_t size, const WDF_OBJECT_ATTRIBUTES *attributes,
                     void *parent) {
    WDF_OBJECT_ATTRIBUTES plain;
    WDF_OBJECT_ATTRIBUTES_INIT(&plain);
    attributes = attributes ? attributes : &plain;
    expect_plain(attributes);
    struct iocsq_wdf_object *made = calloc(1, size);
    void *context = calloc(1, context_size(attributes) + (size_t)1);
    if (!made || !context) {
        free(made);
        free(context);
        return NULL;
    }
    iocsq_begin_memory(context, context_size(attributes));
    made->kind = kind;
    made->attributes = *attributes;
    made->context = context;
    made->parent = attributes->ParentObject
                       ? any_object(attributes->ParentObject, "a create with the parent")
                       : parent;
    if (kind != IOCSQ_WDF_REQUEST) {
        add_object(made);
    }
    return made;
}

/* ---- Ends ---- */
static struct iocsq_wdf_object *child_of(const struct iocsq_wdf_object *parent) {
    iocsq_lock_framework();
    struct iocsq_wdf_object *at = objects;
    while (at && at->parent != parent) {
        at = at->next;
    }
    iocsq_unlock_state();
    return at;
}

static void remove_object(const struct iocsq_wdf_object *object) {
    iocsq_lock_framework();
    struct iocsq_wdf_object **at = &objects;
    while (*at && *at != object) {
        at = &(*at)->next;
    }
    if (*at) {
        *at = object->next;
    }
    iocsq_unlock_state();
}

static bool is_below(const struct iocsq_wdf_object *object, const struct iocsq_wdf_object *above) {
    while (object && object != above) {
        object = object->parent;
    }
    return object != NULL;
}

/* An object below this one, or itself, of which something may run. From now on nothing below is
 * started. */
static struct iocsq_wdf_object *runs_below(const struct iocsq_wdf_object *above) {
    struct iocsq_wdf_object *found = NULL;
    iocsq_lock_framework();
    for (struct iocsq_wdf_object *at = objects; at; at = at->next) {
        if (is_below(at, above)) {
            at->ends = true;
            found = at->stop ? at : found;
        }
    }
    iocsq_unlock_state();
    return found;
}

static void stop_all(const struct iocsq_wdf_object *above) {
    for (struct iocsq_wdf_object *at; (at = runs_below(above)) != NULL;) {
        void (*stop)(struct iocsq_wdf_object *, bool) = at->stop;
        at->stop = NULL;
        stop(at, true);
    }
}

static WDFOBJECT handle_of(struct iocsq_wdf_object *object) {
    bool is_request = object->kind == IOCSQ_WDF_REQUEST;
    return is_request ? (WDFOBJECT)iocsq_wdf_handle((struct iocsq_wdf_request *)(void *)object)
                      : (WDFOBJECT)object;
}

/* With its callback it still has its handle. */
static void destroy(struct iocsq_wdf_object *object) {
    size_t size = context_size(&object->attributes);
    if (object->attributes.EvtDestroyCallback) {
        object->attributes.EvtDestroyCallback(handle_of(object));
    }
    if (size > 0) {
        iocsq_check_no_deferred(object->context, size, "the end of an object's context");
        iocsq_check_no_running(object->context, size, "the end of an object's context");
        iocsq_end_queues_in(object->context, size, "the end of an object's context");
    }
    if (object->kind == IOCSQ_WDF_REQUEST) {
        iocsq_wdf_remove((struct iocsq_wdf_request *)(void *)object);
    } else {
        remove_object(object);
    }
    free(object->context);
    free(object);
}

void iocsq_wdf_end(struct iocsq_wdf_object *object) {
    struct iocsq_wdf_object *child;
    stop_all(object);
    while ((child = child_of(object)) != NULL) {
        iocsq_wdf_end(child);
    }
    if (object->attributes.EvtCleanupCallback) {
        object->attributes.EvtCleanupCallback(handle_of(object));
    }
    iocsq_lock_framework();
    object->ended = true;
    object->parent = NULL;
    bool held = object->held > 0;
    iocsq_unlock_state();
    if (!held) {
        destroy(object);
    }
}

void iocsq_wdf_check_dereferenced(void) {
    const struct iocsq_irp *irp = iocsq_wdf_left();
    if (irp) {
        iocsq_disagree(NULL,
                       "the driver was unloaded, and irp %u, which was completed, is still "
                       "referenced: a WdfObjectDereference is missing",
                       irp->index);
    }
    if (objects) {
        iocsq_disagree(NULL,
                       "the driver was unloaded, and a %s of it is still referenced: a "
                       "WdfObjectDereference is missing",
                       kind_names[objects->kind]);
    }
}

/* ---- What a driver calls ---- */
PVOID WdfObjectGetTypedContextWorker(WDFOBJECT Handle, PCWDF_OBJECT_CONTEXT_TYPE_INFO TypeInfo) {
    struct iocsq_wdf_object *object = any_object(Handle, "WdfObjectGetTypedContext");
    PCWDF_OBJECT_CONTEXT_TYPE_INFO info = object->attributes.ContextTypeInfo;
    return info && strcmp(info->ContextName, TypeInfo->ContextName) == 0 ? object->context : NULL;
}

/* The memory of what may run at this time, or makes this call itself, stays until its parent
 * ends. */
VOID WdfObjectDelete(WDFOBJECT Object) {
    struct iocsq_wdf_object *object = any_object(Object, "WdfObjectDelete");
    if (object->kind == IOCSQ_WDF_QUEUE) {
        iocsq_fail("WdfObjectDelete of a queue isn't here");
    }
    if (object->kind == IOCSQ_WDF_REQUEST || object->kind == IOCSQ_WDF_DRIVER ||
        object->kind == IOCSQ_WDF_DEVICE || object->kind == IOCSQ_WDF_FILE) {
        iocsq_disagree(NULL, "WdfObjectDelete of a %s, which the framework deletes",
                       kind_names[object->kind]);
    }
    if (object->stop) {
        object->stop(object, false);
    } else {
        iocsq_wdf_end(object);
    }
}

VOID IocsqWdfReference(WDFOBJECT Handle, LONG Change) {
    const char *call = Change > 0 ? "WdfObjectReference" : "WdfObjectDereference";
    struct iocsq_wdf_object *object = any_object(Handle, call);
    iocsq_lock_framework();
    if (Change < 0 && object->held == 0) {
        iocsq_disagree(NULL, "WdfObjectDereference of a %s, more often than it was referenced",
                       kind_names[object->kind]);
    }
    object->held += (uint32_t)Change;
    bool goes = object->held == 0 && object->ended;
    iocsq_unlock_state();
    if (object->kind == IOCSQ_WDF_REQUEST) {
        iocsq_wdf_refer((struct iocsq_wdf_request *)(void *)object, 0);
    } else if (goes) {
        destroy(object);
    }
}
