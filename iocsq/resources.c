/* Resources (ERESOURCE), and lists without a lock: all of it under the state's lock. */
#include "internal.h"

enum { RESOURCE = 0x5265, SLIST = 0x534C };

static PERESOURCE resources; /* that were not deleted */

static void expect_resource(const ERESOURCE *resource, const char *call) {
    iocsq_expect_irql(APC_LEVEL, call);
    if (resource->Initialized != RESOURCE) {
        iocsq_disagree(NULL, "%s of a resource that was not initialized, or was deleted", call);
    }
}

NTSTATUS NTAPI ExInitializeResourceLite(PERESOURCE Resource) {
    ERESOURCE made = { .Initialized = RESOURCE };
    iocsq_expect_nonpaged(Resource, "a resource");
    iocsq_lock_state_for(&resources, IOCSQ_CHANGES);
    for (PERESOURCE at = resources; at; at = at->Next) {
        if (at == Resource) {
            iocsq_disagree(NULL, "ExInitializeResourceLite of a resource that was not deleted");
        }
    }
    made.Next = resources;
    *Resource = made;
    resources = Resource;
    iocsq_unlock_state();
    return STATUS_SUCCESS;
}

/* The place of this thread among the sharers, or of the first that is free for 0. IOCSQ_SHARERS:
 * there is none. Others write only their own numbers there, and a free place is taken only once the
 * resource is touched. */
IOCSQ_COMMUTES static uint32_t place_of(const ERESOURCE *resource, uint32_t thread) {
    uint32_t at = 0;
    while (at < IOCSQ_SHARERS && resource->Sharers[at].Thread != thread) {
        at++;
    }
    return at;
}

static bool is_shared(const ERESOURCE *resource) {
    uint32_t sharers = 0;
    for (uint32_t at = 0; at < IOCSQ_SHARERS; at++) {
        sharers += resource->Sharers[at].Thread != 0;
    }
    return sharers > 0;
}

NTSTATUS NTAPI ExDeleteResourceLite(PERESOURCE Resource) {
    PERESOURCE *link = &resources;
    expect_resource(Resource, "ExDeleteResourceLite");
    iocsq_lock_state_for(&resources, IOCSQ_CHANGES);
    iocsq_touch(Resource, IOCSQ_LOOKS);
    if (Resource->Owner != 0 || is_shared(Resource)) {
        iocsq_disagree(NULL, "ExDeleteResourceLite of a resource that a thread has");
    }
    while (*link != Resource) {
        link = &(*link)->Next;
    }
    *link = Resource->Next;
    Resource->Initialized = 0;
    iocsq_unlock_state();
    return STATUS_SUCCESS;
}

void iocsq_check_no_resource(const void *from, size_t size, const char *what) {
    iocsq_lock_state_for(&resources, IOCSQ_LOOKS);
    for (const ERESOURCE *at = resources; at; at = at->Next) {
        if ((uintptr_t)at - (uintptr_t)from < size) {
            iocsq_disagree(NULL, "%s, and a resource in it was not deleted", what);
        }
    }
    iocsq_unlock_state();
}

/* ---- Acquires ---- */
struct acquire {
    PERESOURCE resource;
    bool exclusive;
    uint32_t thread;
};

/* Whether it can be had now. What a thread has exclusively it can have again in both ways. In turns
 * another thread asks this. */
static bool can_be_had(void *of) {
    const struct acquire *by = of;
    const ERESOURCE *resource = by->resource;
    if (resource->Owner != 0) {
        return resource->Owner == by->thread;
    }
    return !by->exclusive || !is_shared(resource);
}

static void share(PERESOURCE resource) {
    uint32_t at = place_of(resource, iocsq_thread());
    if (at == IOCSQ_SHARERS) {
        at = place_of(resource, 0);
        if (at == IOCSQ_SHARERS) {
            iocsq_fail("more than %u threads share a resource", (unsigned)IOCSQ_SHARERS);
        }
        resource->Sharers[at].Thread = iocsq_thread();
        iocsq_note_lock(resource);
    }
    resource->Sharers[at].Depth++;
}

static void take(const struct acquire *by) {
    PERESOURCE resource = by->resource;
    if (resource->Owner == 0 && !by->exclusive) {
        share(resource);
        return;
    }
    if (resource->Owner == 0) {
        iocsq_note_lock(resource);
    }
    resource->Owner = iocsq_thread();
    resource->Depth++;
}

static BOOLEAN acquire(struct acquire by, BOOLEAN wait, const char *call) {
    expect_resource(by.resource, call);
    iocsq_point();
    iocsq_lock_state_for(NULL, 0);
    if (by.exclusive && wait && place_of(by.resource, iocsq_thread()) < IOCSQ_SHARERS) {
        iocsq_disagree(NULL,
                       "a deadlock: %s of a resource that this thread shares waits for it to "
                       "release it",
                       call);
    }
    bool taken = iocsq_await(can_be_had, &by, wait ? IOCSQ_FOR_EVER : 0, "a resource");
    iocsq_touch(by.resource, taken ? (unsigned)IOCSQ_SYNC : (unsigned)IOCSQ_LOOKS);
    if (taken) {
        take(&by);
    }
    iocsq_unlock_state();
    return taken;
}

BOOLEAN NTAPI ExAcquireResourceExclusiveLite(PERESOURCE Resource, BOOLEAN Wait) {
    struct acquire by = { Resource, true, iocsq_thread() };
    return acquire(by, Wait, "ExAcquireResourceExclusiveLite");
}

BOOLEAN NTAPI ExAcquireResourceSharedLite(PERESOURCE Resource, BOOLEAN Wait) {
    struct acquire by = { Resource, false, iocsq_thread() };
    return acquire(by, Wait, "ExAcquireResourceSharedLite");
}

/* ---- Releases ---- */
static void stop_sharing(PERESOURCE resource) {
    uint32_t at = place_of(resource, iocsq_thread());
    if (at == IOCSQ_SHARERS) {
        iocsq_disagree(NULL, "ExReleaseResourceLite of a resource that this thread doesn't have");
    }
    if (--resource->Sharers[at].Depth == 0) {
        resource->Sharers[at].Thread = 0;
        iocsq_forget_lock(resource);
    }
}

VOID FASTCALL ExReleaseResourceLite(PERESOURCE Resource) {
    expect_resource(Resource, "ExReleaseResourceLite");
    iocsq_lock_state_for(Resource, IOCSQ_SYNC);
    if (Resource->Owner != iocsq_thread()) {
        stop_sharing(Resource);
    } else if (--Resource->Depth == 0) {
        Resource->Owner = 0;
        iocsq_forget_lock(Resource);
    }
    iocsq_state_changed();
    iocsq_unlock_state();
    iocsq_point();
}

VOID NTAPI ExConvertExclusiveToSharedLite(PERESOURCE Resource) {
    expect_resource(Resource, "ExConvertExclusiveToSharedLite");
    iocsq_lock_state_for(Resource, IOCSQ_SYNC);
    if (Resource->Owner != iocsq_thread()) {
        iocsq_disagree(NULL, "ExConvertExclusiveToSharedLite of a resource that this thread "
                             "doesn't have exclusively");
    }
    Resource->Sharers[0].Thread = Resource->Owner; /* nobody shares it */
    Resource->Sharers[0].Depth = Resource->Depth;
    Resource->Owner = 0;
    Resource->Depth = 0;
    iocsq_state_changed();
    iocsq_unlock_state();
}

BOOLEAN NTAPI ExIsResourceAcquiredExclusiveLite(PERESOURCE Resource) {
    expect_resource(Resource, "ExIsResourceAcquiredExclusiveLite");
    iocsq_lock_state_for(Resource, IOCSQ_LOOKS);
    bool has = Resource->Owner == iocsq_thread();
    iocsq_unlock_state();
    return has;
}

ULONG NTAPI ExIsResourceAcquiredSharedLite(PERESOURCE Resource) {
    expect_resource(Resource, "ExIsResourceAcquiredSharedLite");
    iocsq_lock_state_for(Resource, IOCSQ_LOOKS);
    uint32_t at = place_of(Resource, iocsq_thread());
    ULONG depth = Resource->Owner == iocsq_thread() ? Resource->Depth
                  : at < IOCSQ_SHARERS              ? Resource->Sharers[at].Depth
                                                    : 0;
    iocsq_unlock_state();
    return depth;
}

/* ---- Lists without a lock: each call is a single step ---- */
static void begin_step(const SLIST_HEADER *head, const char *call) {
    if (head->Initialized != SLIST) {
        iocsq_disagree(NULL, "%s of a list whose head was not initialized, or was overwritten",
                       call);
    }
    iocsq_point();
    iocsq_lock_state_for(head, IOCSQ_SYNC);
}

VOID NTAPI InitializeSListHead(PSLIST_HEADER SListHead) {
    SLIST_HEADER made = { .Initialized = SLIST };
    *SListHead = made;
}

PSLIST_ENTRY NTAPI InterlockedPushEntrySList(PSLIST_HEADER ListHead, PSLIST_ENTRY ListEntry) {
    begin_step(ListHead, "InterlockedPushEntrySList");
    PSLIST_ENTRY first = ListHead->First.Next;
    for (PSLIST_ENTRY at = first; at; at = at->Next) {
        if (at == ListEntry) {
            iocsq_disagree(NULL, "InterlockedPushEntrySList of an entry that is in the list");
        }
    }
    ListEntry->Next = first;
    ListHead->First.Next = ListEntry;
    ListHead->Depth++;
    iocsq_unlock_state();
    return first;
}

PSLIST_ENTRY NTAPI InterlockedPopEntrySList(PSLIST_HEADER ListHead) {
    begin_step(ListHead, "InterlockedPopEntrySList");
    PSLIST_ENTRY first = ListHead->First.Next;
    if (first) {
        ListHead->First.Next = first->Next;
        ListHead->Depth--;
    }
    iocsq_unlock_state();
    return first;
}

PSLIST_ENTRY NTAPI InterlockedFlushSList(PSLIST_HEADER ListHead) {
    begin_step(ListHead, "InterlockedFlushSList");
    PSLIST_ENTRY first = ListHead->First.Next;
    ListHead->First.Next = NULL;
    ListHead->Depth = 0;
    iocsq_unlock_state();
    return first;
}

USHORT NTAPI QueryDepthSList(PSLIST_HEADER ListHead) {
    begin_step(ListHead, "QueryDepthSList");
    USHORT depth = ListHead->Depth;
    iocsq_unlock_state();
    return depth;
}
