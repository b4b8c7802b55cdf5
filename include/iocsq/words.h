/* Of iocsq.h: words of the WDK's headers that say nothing here. */
#ifndef IOCSQ_WORDS_H
#define IOCSQ_WORDS_H
#include "compiler.h"

/* ---- Of declarations ---- */
#define NTAPI
#define FASTCALL
#define NTKERNELAPI
#define NTSYSAPI
#define CONST const
#define IN
#define OUT
#define OPTIONAL
#define FORCEINLINE static inline
#define DECLSPEC_CACHEALIGN
#define NOTHING
#if !defined(__declspec) && !defined(_MSC_VER) /* clang may know it */
#define __declspec(x)
#endif

/* ---- sal.h: parameters ---- */
#define _In_
#define _In_opt_
#define _In_z_
#define _In_reads_(x)
#define _In_reads_opt_(x)
#define _In_reads_bytes_(x)
#define _In_reads_bytes_opt_(x)
#define _Out_
#define _Out_opt_
#define _Out_writes_(x)
#define _Out_writes_opt_(x)
#define _Out_writes_bytes_(x)
#define _Out_writes_bytes_opt_(x)
#define _Out_writes_bytes_to_(x, y)
#define _Outptr_
#define _Outptr_opt_
#define _Outptr_result_maybenull_
#define _Inout_
#define _Inout_opt_
#define _Inout_updates_(x)
#define _Inout_updates_bytes_(x)
#define _Reserved_
#define _Const_
#define _Null_terminated_
#define _Field_size_(x)
#define _Field_size_bytes_(x)
#define _Field_size_bytes_opt_(x)
#define _In_range_(x, y)
#define _Out_range_(x, y)
#define _Field_range_(x, y)
#define _In_bytecount_(x)
#define _Out_bytecap_(x)

/* ---- sal.h: results, and what holds before and after a call ---- */
#define _Check_return_
#define _Must_inspect_result_
#define _Ret_maybenull_
#define _Ret_notnull_
#define _Success_(x)
#define _Return_type_success_(x)
#define _Pre_
#define _Pre_notnull_
#define _Pre_maybenull_
#define _Post_
#define _Post_invalid_
#define _Post_maybenull_
#define _Post_notnull_
#define _Post_ptr_invalid_
#define _Notnull_
#define _Maybenull_
#define _When_(x, y)
#define _At_(x, y)
#define _Function_class_(x)
#define _Use_decl_annotations_
#define _Always_(x)
#define _Pre_satisfies_(x)
#define _Post_satisfies_(x)
#define _Printf_format_string_
#define _Analysis_assume_(x) ((void)0)
#define __analysis_assume(x) ((void)0)

/* ---- sal.h of the older WDK, whose words C++'s headers use as names ---- */
#ifndef __cplusplus
#define __in
#define __in_opt
#define __in_bcount(x)
#define __in_bcount_opt(x)
#define __in_ecount(x)
#define __in_ecount_opt(x)
#define __out
#define __out_opt
#define __out_bcount(x)
#define __out_bcount_opt(x)
#define __out_bcount_part(x, y)
#define __out_ecount(x)
#define __out_ecount_opt(x)
#define __inout
#define __inout_opt
#define __inout_bcount(x)
#define __inout_ecount(x)
#define __deref_out
#define __deref_out_opt
#define __deref_inout
#ifndef __aarch64__ /* whose headers of Linux have fields of this name */
#define __reserved
#endif
#define __checkReturn
#define __success(x)
#endif

/* ---- Locks and IRQL ---- */
#define _IRQL_requires_(x)
#define _IRQL_requires_max_(x)
#define _IRQL_requires_min_(x)
#define _IRQL_requires_same_
#define _IRQL_always_function_max_(x)
#define _IRQL_always_function_min_(x)
#define _IRQL_raises_(x)
#define _IRQL_saves_
#define _IRQL_saves_global_(x, y)
#define _IRQL_restores_
#define _IRQL_restores_global_(x, y)
#define _IRQL_uses_cancel_
#define _Acquires_lock_(x)
#define _Acquires_exclusive_lock_(x)
#define _Acquires_shared_lock_(x)
#define _Releases_lock_(x)
#define _Releases_exclusive_lock_(x)
#define _Releases_shared_lock_(x)
#define _Requires_lock_held_(x)
#define _Requires_lock_not_held_(x)
#define _Guarded_by_(x)
#define _Has_lock_kind_(x)
#define _Has_lock_level_(x)
#define _Create_lock_level_(x)
#define _Interlocked_operand_
#define _Interlocked_

/* ---- driverspecs.h ---- */
#define _Dispatch_type_(x)
#define _Kernel_clear_do_init_(x)
#define __drv_aliasesMem
#define __drv_allocatesMem(x)
#define __drv_freesMem(x)
#define __drv_dispatchType(x)
#define __drv_requiresIRQL(x)
#define __drv_maxIRQL(x)
#define __drv_minIRQL(x)
#define __drv_sameIRQL
#define __drv_functionClass(x)
#define __drv_requiresCancelIrql
#define __drv_useCancelIRQL
#define __drv_in(x)
#define __drv_out(x)
#define __drv_inTry
#define __drv_mustHold(x)
#define __drv_neverHold(x)
#define __drv_maxFunctionIRQL(x)

#endif
