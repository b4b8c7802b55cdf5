/* Of base.h: strings, memory, text for a debugger, asserts. */
#include "internal.h"

#include <stdarg.h>

VOID NTAPI RtlInitUnicodeString(PUNICODE_STRING DestinationString, PCWSTR SourceString) {
    size_t length = SourceString ? wcslen(SourceString) * sizeof(WCHAR) : 0;
    DestinationString->Length = (USHORT)length;
    DestinationString->MaximumLength = (USHORT)(length + sizeof(WCHAR));
    DestinationString->Buffer = (PWSTR)(uintptr_t)SourceString;
}

SIZE_T NTAPI RtlCompareMemory(const void *Source1, const void *Source2, SIZE_T Length) {
    const unsigned char *first = Source1, *second = Source2;
    SIZE_T count = 0;
    while (count < Length && first[count] == second[count]) {
        count++;
    }
    return count;
}

/* A format with types that C doesn't have, as %wZ, is printed as it is. */
static ULONG print(const char *format, va_list rest) {
    bool is_known = !strstr(format, "%w") && !strstr(format, "%S") && !strstr(format, "%Z");
    if (is_known) {
        vprintf(format, rest);
    } else {
        fputs(format, stdout);
    }
    return 0;
}

ULONG DbgPrint(const char *Format, ...) {
    va_list rest;
    va_start(rest, Format);
    ULONG status = print(Format, rest);
    va_end(rest);
    return status;
}

ULONG DbgPrintEx(ULONG ComponentId, ULONG Level, const char *Format, ...) {
    va_list rest;
    (void)ComponentId;
    va_start(rest, Format);
    ULONG status = Level == DPFLTR_ERROR_LEVEL ? print(Format, rest) : 0;
    va_end(rest);
    return status;
}

VOID IocsqAssert(const char *Expression) {
    iocsq_disagree(NULL, "an assert of the driver does not hold: %s", Expression);
}
