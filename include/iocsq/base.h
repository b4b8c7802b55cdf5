/* Of iocsq.h: types, strings, asserts, lists and memory of the WDK. */
#ifndef IOCSQ_BASE_H
#define IOCSQ_BASE_H

#include <stddef.h>
#include <stdint.h>
#include <stdio.h>
#include <string.h>
#include <wchar.h>

#include "numbers.h"
#include "words.h"

#ifdef __cplusplus
#define IOCSQ_ATOMIC(T) volatile T
extern "C" {
#else
#define IOCSQ_ATOMIC(T) _Atomic(T)
#endif

/* ---- Numbers ---- */
#ifndef VOID
#define VOID void
#endif
#define TRUE 1
#define FALSE 0
typedef void *PVOID, *HANDLE, **PHANDLE;
typedef char CHAR, CCHAR, *PCHAR, *PSTR;
typedef const char *PCSTR;
typedef unsigned char UCHAR, *PUCHAR, BOOLEAN, *PBOOLEAN;
typedef int16_t SHORT, CSHORT, *PSHORT;
typedef uint16_t USHORT, *PUSHORT;
typedef int INT, *PINT;
typedef unsigned UINT, *PUINT;
typedef int32_t LONG, *PLONG;
#define MAXUSHORT 0xffff
#define MAXLONG 0x7fffffff
#define MAXULONG 0xffffffff
#define MAXULONG_PTR (~(ULONG_PTR)0)
typedef uint32_t ULONG, *PULONG, ULONG32;
typedef int64_t LONGLONG, *PLONGLONG, LONG64, *PLONG64;
typedef uint64_t ULONGLONG, *PULONGLONG, ULONG64, *PULONG64;
typedef intptr_t LONG_PTR, *PLONG_PTR;
typedef uintptr_t ULONG_PTR, *PULONG_PTR, SIZE_T, *PSIZE_T;
typedef wchar_t WCHAR, *PWCHAR, *PWSTR;
typedef const wchar_t *PCWSTR;
typedef union _LARGE_INTEGER {
    IOCSQ_EXTENSION struct { /* which C++ has no word for without a name */
        ULONG LowPart;
        LONG HighPart;
    };
    struct {
        ULONG LowPart;
        LONG HighPart;
    } u;
    LONGLONG QuadPart;
} LARGE_INTEGER, *PLARGE_INTEGER;
typedef struct _GUID {
    ULONG Data1;
    USHORT Data2, Data3;
    UCHAR Data4[8];
} GUID;
typedef const GUID *LPCGUID;
#ifndef INITGUID /* <initguid.h> has the one that defines it */
#define DEFINE_GUID(name, l, w1, w2, b1, b2, b3, b4, b5, b6, b7, b8) extern const GUID name
#endif
#define Int32x32To64(a, b) ((LONGLONG)(LONG)(a) * (LONGLONG)(LONG)(b))
#define UInt32x32To64(a, b) ((ULONGLONG)(ULONG)(a) * (ULONGLONG)(ULONG)(b))
#define FlagOn(Flags, Flag) ((Flags) & (Flag))
#define BooleanFlagOn(Flags, Flag) ((BOOLEAN)(((Flags) & (Flag)) != 0))
#define SetFlag(Flags, Flag) ((Flags) |= (Flag))
#define ClearFlag(Flags, Flag) ((Flags) &= ~(Flag))
typedef struct _UNICODE_STRING {
    USHORT Length;
    USHORT MaximumLength;
    PWSTR Buffer;
} UNICODE_STRING, *PUNICODE_STRING;
typedef const UNICODE_STRING *PCUNICODE_STRING;
VOID NTAPI RtlInitUnicodeString(PUNICODE_STRING DestinationString, PCWSTR SourceString);
#define RTL_CONSTANT_STRING(s) { sizeof(s) - sizeof(*(s)), sizeof(s), (PWSTR)(uintptr_t)(s) }
#define DECLARE_CONST_UNICODE_STRING(name, s) const UNICODE_STRING name = RTL_CONSTANT_STRING(s)

typedef LONG NTSTATUS;
#define NT_SUCCESS(Status) (((NTSTATUS)(Status)) >= 0)
#define NT_INFORMATION(Status) ((((ULONG)(Status)) >> 30) == 1)
#define NT_WARNING(Status) ((((ULONG)(Status)) >> 30) == 2)
#define NT_ERROR(Status) ((((ULONG)(Status)) >> 30) == 3)

/* ---- For a debugger, asserts ---- */
ULONG DbgPrint(const char *Format, ...); /* on standard output */
/* Errors alone, as by Windows' first mask. */
ULONG DbgPrintEx(ULONG ComponentId, ULONG Level, const char *Format, ...);
VOID IocsqAssert(const char *Expression); /* which doesn't hold: ends the program with a report */
#define KdPrint(x) ((void)0)
#define KdPrintEx(x) ((void)0)
#define DbgBreakPoint() IocsqAssert("DbgBreakPoint")
#define NT_ASSERT(Expression) ((Expression) ? (void)0 : IocsqAssert(#Expression))
#define NT_VERIFY(Expression) ((Expression) ? (void)0 : IocsqAssert(#Expression))
#define ASSERT(Expression) ((Expression) ? (void)0 : IocsqAssert(#Expression))
#define ASSERTMSG(Message, Expression) ((Expression) ? (void)0 : IocsqAssert(Message))
VOID IocsqPagedCode(VOID); /* at DISPATCH_LEVEL: ends the program with a report */
#define PAGED_CODE() IocsqPagedCode()
#define UNREFERENCED_PARAMETER(x) ((void)(x))
#define UNREFERENCED_LOCAL_VARIABLE(x) ((void)(x))
#define RTL_NUMBER_OF(x) (sizeof(x) / sizeof(*(x)))
#define ARRAYSIZE(x) RTL_NUMBER_OF(x)
#define FIELD_OFFSET(type, field) ((LONG)offsetof(type, field))
#define RTL_FIELD_SIZE(type, field) (sizeof(((type *)0)->field))
#define RTL_SIZEOF_THROUGH_FIELD(type, field) (offsetof(type, field) + RTL_FIELD_SIZE(type, field))
#ifdef __cplusplus
#define C_ASSERT(e) static_assert(e, #e)
#else
#define C_ASSERT(e) IOCSQ_EXTENSION _Static_assert(e, #e)
#define min(a, b) ((a) < (b) ? (a) : (b))
#define max(a, b) ((a) > (b) ? (a) : (b))
#endif

/* ---- Lists ---- */
#define CONTAINING_RECORD(address, type, field) \
    ((type *)(void *)((PCHAR)(address) - offsetof(type, field)))
typedef struct _LIST_ENTRY {
    struct _LIST_ENTRY *Flink;
    struct _LIST_ENTRY *Blink;
} LIST_ENTRY, *PLIST_ENTRY;

/* Names to the checker an entry that is linked between two others, or unlinked: where one of the
 * three is of a queued IRP, that wants its queue's lock. */
VOID IocsqTouch(const LIST_ENTRY *Entry, const LIST_ENTRY *Before, const LIST_ENTRY *After,
                const char *Call);

FORCEINLINE VOID InitializeListHead(PLIST_ENTRY Head) {
    Head->Flink = Head->Blink = Head;
}
FORCEINLINE BOOLEAN IsListEmpty(const LIST_ENTRY *Head) {
    return Head->Flink == Head;
}
FORCEINLINE BOOLEAN RemoveEntryList(PLIST_ENTRY Entry) {
    PLIST_ENTRY After = Entry->Flink, Before = Entry->Blink;
    IocsqTouch(Entry, Before, After, "RemoveEntryList");
    Before->Flink = After;
    After->Blink = Before;
    return After == Before;
}
FORCEINLINE PLIST_ENTRY RemoveHeadList(PLIST_ENTRY Head) {
    PLIST_ENTRY Entry = Head->Flink;
    RemoveEntryList(Entry);
    return Entry;
}
FORCEINLINE PLIST_ENTRY RemoveTailList(PLIST_ENTRY Head) {
    PLIST_ENTRY Entry = Head->Blink;
    RemoveEntryList(Entry);
    return Entry;
}
FORCEINLINE VOID InsertTailList(PLIST_ENTRY Head, PLIST_ENTRY Entry) {
    PLIST_ENTRY Before = Head->Blink;
    IocsqTouch(Entry, Before, Head, "InsertTailList");
    Entry->Flink = Head;
    Entry->Blink = Before;
    Before->Flink = Entry;
    Head->Blink = Entry;
}
FORCEINLINE VOID InsertHeadList(PLIST_ENTRY Head, PLIST_ENTRY Entry) {
    PLIST_ENTRY After = Head->Flink;
    IocsqTouch(Entry, Head, After, "InsertHeadList");
    Entry->Flink = After;
    Entry->Blink = Head;
    After->Blink = Entry;
    Head->Flink = Entry;
}
typedef struct _SINGLE_LIST_ENTRY {
    struct _SINGLE_LIST_ENTRY *Next;
} SINGLE_LIST_ENTRY, *PSINGLE_LIST_ENTRY;
FORCEINLINE VOID PushEntryList(PSINGLE_LIST_ENTRY Head, PSINGLE_LIST_ENTRY Entry) {
    Entry->Next = Head->Next;
    Head->Next = Entry;
}
FORCEINLINE PSINGLE_LIST_ENTRY PopEntryList(PSINGLE_LIST_ENTRY Head) {
    PSINGLE_LIST_ENTRY Entry = Head->Next;
    if (Entry) {
        Head->Next = Entry->Next;
    }
    return Entry;
}

/* ---- Memory ---- */
typedef enum _POOL_TYPE {
    NonPagedPool = 0,
    NonPagedPoolExecute = NonPagedPool,
    PagedPool = 1,
    NonPagedPoolCacheAligned = 4,
    PagedPoolCacheAligned = 5,
    NonPagedPoolNx = 512,
    NonPagedPoolNxCacheAligned = 516
} POOL_TYPE;
PVOID NTAPI ExAllocatePoolWithTag(POOL_TYPE PoolType, SIZE_T NumberOfBytes, ULONG Tag);
#define ExAllocatePool(PoolType, NumberOfBytes) \
    ExAllocatePoolWithTag((PoolType), (NumberOfBytes), 0x656e6f4e)
#define ExAllocatePoolUninitialized ExAllocatePoolWithTag
PVOID NTAPI ExAllocatePoolZero(POOL_TYPE PoolType, SIZE_T NumberOfBytes, ULONG Tag);
/* Without POOL_QUOTA_FAIL_INSTEAD_OF_RAISE it raises an exception rather than to return null: here
 * it finds memory then. */
PVOID NTAPI ExAllocatePoolWithQuotaTag(POOL_TYPE PoolType, SIZE_T NumberOfBytes, ULONG Tag);
VOID NTAPI ExFreePoolWithTag(PVOID P, ULONG Tag);
VOID NTAPI ExFreePool(PVOID P);
typedef ULONG64 POOL_FLAGS;
/* Filled with zeros, unless the flags say POOL_FLAG_UNINITIALIZED. */
#define ExFreePool2(P, Tag, Parameters, Count) \
    ((void)(Parameters), (void)(Count), ExFreePoolWithTag((P), (Tag)))
PVOID NTAPI ExAllocatePool2(POOL_FLAGS Flags, SIZE_T NumberOfBytes, ULONG Tag);
#define RtlCopyBytes RtlCopyMemory
#define RtlSecureZeroMemory RtlZeroMemory
#define RtlZeroMemory(Destination, Length) memset((Destination), 0, (Length))
#define RtlCopyMemory(Destination, Source, Length) memcpy((Destination), (Source), (Length))
#define RtlMoveMemory(Destination, Source, Length) memmove((Destination), (Source), (Length))
#define RtlFillMemory(Destination, Length, Fill) memset((Destination), (Fill), (Length))
#define RtlEqualMemory(Source1, Source2, Length) (memcmp((Source1), (Source2), (Length)) == 0)
/* How many bytes are equal. */
SIZE_T NTAPI RtlCompareMemory(const void *Source1, const void *Source2, SIZE_T Length);

/* Lookaside lists, which keep nothing here: so each use of a freed entry is one of freed memory. */
typedef PVOID(NTAPI ALLOCATE_FUNCTION)(POOL_TYPE PoolType, SIZE_T NumberOfBytes, ULONG Tag);
typedef ALLOCATE_FUNCTION *PALLOCATE_FUNCTION;
typedef VOID(NTAPI FREE_FUNCTION)(PVOID Buffer);
typedef FREE_FUNCTION *PFREE_FUNCTION;
typedef struct _LOOKASIDE {
    struct _LOOKASIDE *Next; /* of those that were not deleted */
    POOL_TYPE Type;
    SIZE_T Size;
    ULONG Tag;
    PALLOCATE_FUNCTION Allocate;
    PFREE_FUNCTION Free;
} NPAGED_LOOKASIDE_LIST, *PNPAGED_LOOKASIDE_LIST, PAGED_LOOKASIDE_LIST, *PPAGED_LOOKASIDE_LIST;
VOID NTAPI ExInitializeNPagedLookasideList(PNPAGED_LOOKASIDE_LIST Lookaside,
                                           PALLOCATE_FUNCTION Allocate, PFREE_FUNCTION Free,
                                           ULONG Flags, SIZE_T Size, ULONG Tag, USHORT Depth);
VOID NTAPI ExInitializePagedLookasideList(PPAGED_LOOKASIDE_LIST Lookaside,
                                          PALLOCATE_FUNCTION Allocate, PFREE_FUNCTION Free,
                                          ULONG Flags, SIZE_T Size, ULONG Tag, USHORT Depth);
PVOID NTAPI ExAllocateFromNPagedLookasideList(PNPAGED_LOOKASIDE_LIST Lookaside);
VOID NTAPI ExFreeToNPagedLookasideList(PNPAGED_LOOKASIDE_LIST Lookaside, PVOID Entry);
VOID NTAPI ExDeleteNPagedLookasideList(PNPAGED_LOOKASIDE_LIST Lookaside);
#define ExAllocateFromPagedLookasideList ExAllocateFromNPagedLookasideList
#define ExFreeToPagedLookasideList ExFreeToNPagedLookasideList
#define ExDeletePagedLookasideList ExDeleteNPagedLookasideList

#ifdef __cplusplus
}
#endif
#endif
