/*
 * iocsq.h: enough of the WDK's names for the queue code of a driver to be compiled unchanged, in
 * user mode, over the cancel-safe queue of csq.h, and to be checked while it runs.
 *
 *     iocsq/words.h     words that say nothing here, as those of sal.h
 *     iocsq/numbers.h   statuses, codes and flags
 *     iocsq/base.h      types, strings, asserts, lists, memory
 *     iocsq/kernel.h    IRQL, locks, events, mutexes, semaphores, timers, DPCs, threads
 *     iocsq/io.h        drivers, devices, IRPs and their cancellation, remove locks, work items
 *     iocsq/ex.h        resources, lists without a lock, timers of the executive, interrupts
 *     iocsq/queue.h     IO_CSQ and IoCsqXxx, with the driver's own callbacks
 *
 * The driver's callbacks keep the driver's list, as in the kernel. Beside it runs a queue of csq.h,
 * which decides who gets which IRP. The first disagreement of the two is reported, with the calls
 * before it (iocsq_test.h).
 *
 * A driver includes <wdm.h>, <ntddk.h> or <csq.h> as ever, with include/wdk in front of the
 * compiler's folders. Names, types and numbers are those of the WDK. A driver may not rely on sizes
 * and offsets of the structs here.
 */
#ifndef IOCSQ_H
#define IOCSQ_H

#include "iocsq/base.h"
#include "iocsq/kernel.h"
#include "iocsq/io.h"
#include "iocsq/ex.h"
#include "iocsq/queue.h"

#endif
