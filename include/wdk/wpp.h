/* For a driver that traces by WPP: what its "NAME.tmh" has, which on Windows a preprocessor makes
 * of the sources. The Makefile of iocsq/new writes such a file, which includes this one. The calls
 * do nothing, and don't evaluate what they are given. Levels are those of <evntrace.h>. */
#ifndef IOCSQ_WPP_H
#define IOCSQ_WPP_H
#include "../iocsq.h"

#define WPP_INIT_TRACING(...) ((void)0)
#define WPP_CLEANUP(...) ((void)0)
#define TraceEvents(...) ((void)0)
#define DoTraceMessage(...) ((void)0)
#define DoTraceLevelMessage(...) ((void)0)
#ifndef TRACE_LEVEL_INFORMATION
#define TRACE_LEVEL_NONE 0
#define TRACE_LEVEL_CRITICAL 1
#define TRACE_LEVEL_FATAL 1
#define TRACE_LEVEL_ERROR 2
#define TRACE_LEVEL_WARNING 3
#define TRACE_LEVEL_INFORMATION 4
#define TRACE_LEVEL_VERBOSE 5
#endif

#endif
