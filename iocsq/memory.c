/* The pool, and lookaside lists. */
#include "internal.h"
#include "poison.h"

#include <stdlib.h>

/* ---- The pool: what was allocated and not freed, under the state's lock ---- */
struct allocation {
    struct allocation *next;
    void *at;
    size_t size;
    ULONG tag;
    bool paged;
};
enum { BUCKETS = 1024 };
static struct allocation *allocations[BUCKETS];
static _Atomic uint32_t paged_count; /* of them; written under the state lock, and read without
                                      * it */
static PNPAGED_LOOKASIDE_LIST lookasides; /* that were not deleted */

/* ---- Scarcity: what asks for memory has to go on without ---- */
static _Atomic ULONG scarce; /* one in so many allocations fails; 0: none */
static _Atomic ULONG asked;  /* how often; it isn't drawn which fails, so that a seed's run is the
                              * same up to there */

VOID IocsqScarce(ULONG OneIn) {
    scarce = OneIn;
}

bool iocsq_is_scarce(const char *call) {
    ULONG one_in = scarce;
    bool fails = one_in > 0 && ++asked % one_in == 0;
    if (fails) {
        iocsq_log(NULL, "%s: there is no memory", call);
    }
    return fails;
}

static struct allocation **bucket_of(const void *at) {
    return &allocations[((uintptr_t)at >> 4) % BUCKETS];
}

/* In which order they stand in a bucket is the same. */
IOCSQ_ADDS static void add_allocation(struct allocation *made) {
    struct allocation **bucket = bucket_of(made->at);
    made->next = *bucket;
    *bucket = made;
}

/* The one at this address, which is there no more; null: none was. */
IOCSQ_ADDS static struct allocation *remove_allocation(const void *at) {
    struct allocation **link = bucket_of(at);
    while (*link && (*link)->at != at) {
        link = &(*link)->next;
    }
    struct allocation *found = *link;
    if (found) {
        *link = found->next;
    }
    return found;
}

/* Whether something is paged; of what isn't, that it comes and goes is the same. */
static void count_paged(bool paged, int change) {
    iocsq_touch(&paged_count, paged ? IOCSQ_CHANGES : IOCSQ_LOOKS);
    if (paged) {
        paged_count += (uint32_t)change;
    }
}

static void *take_memory(size_t size, ULONG tag, bool paged) {
    struct allocation *made = malloc(sizeof *made);
    void *at = made ? malloc(size) : NULL;
    if (!at) {
        free(made);
        return NULL;
    }
    iocsq_lock_state_for(at, IOCSQ_CHANGES);
    iocsq_begin_memory(at, size);
    struct allocation allocation = { NULL, at, size, tag, paged };
    *made = allocation;
    add_allocation(made);
    count_paged(paged, 1);
    iocsq_unlock_state();
    return at;
}

/* What fills memory: zeros, or what isn't by chance the zeros that a driver must not rely on. */
enum { ZEROS = 0, NO_ZEROS = 0xA5 };

/* Memory that is filled with this. Where it may be refused, it is once memory is scarce. */
static void *allocate(size_t size, ULONG tag, bool paged, int fill, bool may_fail) {
    const char *call = paged ? "ExAllocatePool of paged memory" : "ExAllocatePool";
    iocsq_expect_irql(paged ? APC_LEVEL : DISPATCH_LEVEL, call);
    if (may_fail && iocsq_is_scarce(call)) {
        return NULL;
    }
    void *at = take_memory(size, tag, paged);
    if (at) {
        memset(at, fill, size);
    }
    return at;
}

PVOID NTAPI ExAllocatePoolWithTag(POOL_TYPE PoolType, SIZE_T NumberOfBytes, ULONG Tag) {
    return allocate(NumberOfBytes, Tag, PoolType & PagedPool, NO_ZEROS, true);
}

PVOID NTAPI ExAllocatePoolZero(POOL_TYPE PoolType, SIZE_T NumberOfBytes, ULONG Tag) {
    return allocate(NumberOfBytes, Tag, PoolType & PagedPool, ZEROS, true);
}

PVOID NTAPI ExAllocatePoolWithQuotaTag(POOL_TYPE PoolType, SIZE_T NumberOfBytes, ULONG Tag) {
    return allocate(NumberOfBytes, Tag, PoolType & PagedPool, NO_ZEROS,
                    PoolType & POOL_QUOTA_FAIL_INSTEAD_OF_RAISE);
}

PVOID NTAPI ExAllocatePool2(POOL_FLAGS Flags, SIZE_T NumberOfBytes, ULONG Tag) {
    return allocate(NumberOfBytes, Tag, (Flags & POOL_FLAG_PAGED) != 0,
                    Flags & POOL_FLAG_UNINITIALIZED ? NO_ZEROS : ZEROS, true);
}

static struct allocation *take_allocation(const void *at) {
    iocsq_lock_state_for(at, IOCSQ_CHANGES);
    struct allocation *found = remove_allocation(at);
    if (found) {
        count_paged(found->paged, -1);
    }
    iocsq_unlock_state();
    return found;
}

static bool lies_in(const void *at, const void *from, size_t size) {
    return (uintptr_t)at - (uintptr_t)from < size;
}

void iocsq_expect_nonpaged(const void *at, const char *what) {
    iocsq_touch(&paged_count, IOCSQ_LOOKS);
    if (paged_count == 0) {
        return;
    }
    iocsq_lock_state_for(&paged_count, IOCSQ_CHANGES);
    for (uint32_t bucket = 0; bucket < BUCKETS; bucket++) {
        for (const struct allocation *of = allocations[bucket]; of; of = of->next) {
            if (of->paged && lies_in(at, of->at, of->size)) {
                iocsq_disagree(NULL, "%s lies in the paged pool: it has to be nonpaged", what);
            }
        }
    }
    iocsq_unlock_state();
}

void iocsq_check_no_lookaside(const void *from, size_t size) {
    iocsq_lock_state_for(&lookasides, IOCSQ_LOOKS);
    for (PNPAGED_LOOKASIDE_LIST at = lookasides; at; at = at->Next) {
        if (lies_in(at, from, size)) {
            iocsq_disagree(
                NULL,
                "memory goes, and a lookaside list in it (of %zu bytes, tag %08X) was not deleted",
                (size_t)at->Size, at->Tag);
        }
    }
    iocsq_unlock_state();
}

/* ---- What was freed, kept for a while: is it written to? ---- */
/* The address sanitizer looks by itself, and at reads too. */
#ifdef IOCSQ_POISONS
enum { KEPT_BYTES = 0, KEPT = 1 };
#else
enum { KEPT_BYTES = 4096, KEPT = 256 }; /* larger memory isn't kept, and of smaller at most KEPT
                                         * pieces */
#endif
static struct allocation kept[KEPT]; /* under the state's lock; `at` null: none */
static uint32_t kept_next;

static void expect_untouched(const struct allocation *of) {
    const UCHAR *bytes = of->at;
    size_t at = 0;
    while (at < of->size && bytes[at] == IOCSQ_GONE) {
        at++;
    }
    if (at < of->size) {
        iocsq_disagree(NULL,
                       "memory was written to after it was freed: byte %zu of %zu with the tag "
                       "%08X (make clean test SANITIZE=address shows where)",
                       at, of->size, of->tag);
    }
}

/* The memory goes in the place of the oldest. */
IOCSQ_ADDS static void keep(struct allocation freed) {
    if (freed.size > KEPT_BYTES) {
        free(freed.at);
        return;
    }
    iocsq_lock_state_for(&kept_next, IOCSQ_LOOKS);
    struct allocation *place = &kept[kept_next++ % KEPT];
    if (place->at) {
        expect_untouched(place);
        free(place->at);
    }
    *place = freed;
    iocsq_unlock_state();
}

static void let_go_of_kept(void) {
    static const struct allocation none;
    for (uint32_t at = 0; at < KEPT; at++) {
        if (kept[at].at) {
            expect_untouched(&kept[at]);
            free(kept[at].at);
            kept[at] = none;
        }
    }
}

/* By a call that the driver makes from this place. */
static void free_pool(void *at, const ULONG *tag, const void *place) {
    struct allocation *found = take_allocation(at);
    if (!found) {
        iocsq_disagree(NULL, "ExFreePool of %s",
                       at ? "memory that was not allocated, or was freed before" : "null");
    }
    if (tag && found->tag != *tag) {
        iocsq_disagree(NULL,
                       "ExFreePoolWithTag with the tag %08X of memory that was allocated with %08X",
                       *tag, found->tag);
    }
    iocsq_expect_irql(found->paged ? APC_LEVEL : DISPATCH_LEVEL, "ExFreePool");
    iocsq_check_no_lookaside(at, found->size);
    iocsq_check_no_deferred(at, found->size, "ExFreePool of memory");
    iocsq_note_freed(at, found->size);
    iocsq_check_no_resource(at, found->size, "ExFreePool of memory");
    iocsq_end_queues_in(at, found->size, "ExFreePool of memory");
    iocsq_end_memory(at, found->size, "ExFreePool", place);
    memset(at, IOCSQ_GONE, found->size); /* for whoever uses it later: not by chance what it was */
    keep(*found);
    free(found);
}

VOID NTAPI ExFreePoolWithTag(PVOID P, ULONG Tag) {
    free_pool(P, &Tag, __builtin_return_address(0));
}

VOID NTAPI ExFreePool(PVOID P) {
    free_pool(P, NULL, __builtin_return_address(0));
}

void iocsq_check_memory_freed(void) {
    let_go_of_kept();
    iocsq_check_no_lookaside(NULL, SIZE_MAX);
    for (uint32_t at = 0; at < BUCKETS; at++) {
        if (allocations[at]) {
            iocsq_disagree(NULL,
                           "the driver was unloaded, and %zu bytes with the tag %08X were not "
                           "freed: a reference to them was not dropped, or they were lost",
                           allocations[at]->size, allocations[at]->tag);
        }
    }
}

/* ---- Lookaside lists ---- */
static void initialize(PNPAGED_LOOKASIDE_LIST list, NPAGED_LOOKASIDE_LIST fields) {
    iocsq_expect_nonpaged(list, "a lookaside list");
    if (!fields.Allocate != !fields.Free) {
        iocsq_disagree(
            NULL, "a lookaside list has one of the routines Allocate and Free, and not the other");
    }
    iocsq_lock_state_for(&lookasides, IOCSQ_CHANGES);
    fields.Next = lookasides;
    *list = fields;
    lookasides = list;
    iocsq_unlock_state();
}

VOID NTAPI ExInitializeNPagedLookasideList(PNPAGED_LOOKASIDE_LIST Lookaside,
                                           PALLOCATE_FUNCTION Allocate, PFREE_FUNCTION Free,
                                           ULONG Flags, SIZE_T Size, ULONG Tag, USHORT Depth) {
    NPAGED_LOOKASIDE_LIST fields = { NULL, NonPagedPoolNx, Size, Tag, Allocate, Free };
    (void)Flags, (void)Depth;
    initialize(Lookaside, fields);
}

VOID NTAPI ExInitializePagedLookasideList(PPAGED_LOOKASIDE_LIST Lookaside,
                                          PALLOCATE_FUNCTION Allocate, PFREE_FUNCTION Free,
                                          ULONG Flags, SIZE_T Size, ULONG Tag, USHORT Depth) {
    PAGED_LOOKASIDE_LIST fields = { NULL, PagedPool, Size, Tag, Allocate, Free };
    (void)Flags, (void)Depth;
    initialize(Lookaside, fields);
}

static PNPAGED_LOOKASIDE_LIST *link_of(const NPAGED_LOOKASIDE_LIST *list) {
    PNPAGED_LOOKASIDE_LIST *at = &lookasides;
    while (*at && *at != list) {
        at = &(*at)->Next;
    }
    return at;
}

static void expect_initialized(const NPAGED_LOOKASIDE_LIST *list, const char *call) {
    iocsq_lock_state_for(&lookasides, IOCSQ_LOOKS);
    bool known = *link_of(list) != NULL;
    iocsq_unlock_state();
    if (!known) {
        iocsq_disagree(
            NULL, "%s of a lookaside list that was not initialized, or was deleted before", call);
    }
}

PVOID NTAPI ExAllocateFromNPagedLookasideList(PNPAGED_LOOKASIDE_LIST Lookaside) {
    expect_initialized(Lookaside, "an allocation");
    PALLOCATE_FUNCTION of = Lookaside->Allocate ? Lookaside->Allocate : ExAllocatePoolWithTag;
    return of(Lookaside->Type, Lookaside->Size, Lookaside->Tag);
}

VOID NTAPI ExFreeToNPagedLookasideList(PNPAGED_LOOKASIDE_LIST Lookaside, PVOID Entry) {
    expect_initialized(Lookaside, "a free");
    (Lookaside->Free ? Lookaside->Free : ExFreePool)(Entry);
}

VOID NTAPI ExDeleteNPagedLookasideList(PNPAGED_LOOKASIDE_LIST Lookaside) {
    expect_initialized(Lookaside, "the deletion");
    iocsq_lock_state_for(&lookasides, IOCSQ_CHANGES);
    *link_of(Lookaside) = Lookaside->Next;
    iocsq_unlock_state();
}
