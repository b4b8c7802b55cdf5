/* What the programs share that test any driver: storm.c, patient.c, bounded.c. */
#ifndef PROGRAM_H
#define PROGRAM_H
#include "iocsq_test.h"

#include <stdbool.h>
#include <stdio.h>
#include <stdlib.h>
#include <string.h>

#define CONTROL(function) CTL_CODE(FILE_DEVICE_UNKNOWN, function, METHOD_BUFFERED, FILE_ANY_ACCESS)
#define ANY_CONTROL CONTROL(0x801)

extern DRIVER_INITIALIZE DriverEntry;
/* What a driver's callbacks mean, if it isn't the usual. */
extern const IOCSQ_POLICY DriverPolicy __attribute__((weak));
/* The control codes that it knows, and a 0 after them. */
extern const ULONG DriverControls[] __attribute__((weak));

static inline uint32_t count_controls(void) {
    uint32_t count = 0;
    while (DriverControls && DriverControls[count]) {
        count++;
    }
    return count;
}

/* A kind of requests: reads, writes, or from KIND_CONTROL on the controls of one code each. */
enum { KIND_ANY = -1, KIND_READ, KIND_WRITE, KIND_CONTROL };

static inline int count_kinds(void) {
    uint32_t controls = count_controls();
    return KIND_CONTROL + (controls ? (int)controls : 1);
}

static inline ULONG code_of_kind(int kind) {
    return count_controls() ? DriverControls[kind - KIND_CONTROL] : (ULONG)ANY_CONTROL;
}

static inline uint32_t next_of(uint32_t *dice, uint32_t below) {
    *dice ^= *dice << 13;
    *dice ^= *dice >> 17;
    *dice ^= *dice << 5;
    return *dice % below;
}

/* What a request brings: a small number, now and then any byte, so that a driver that reads one of
 * 1, 2 or 4 bytes finds another each time. */
static inline void fill_buffer(uint32_t *dice, unsigned char *buffer, size_t size) {
    memset(buffer, 0, size);
    buffer[0] = (unsigned char)next_of(dice, next_of(dice, 8) ? 4 : 256);
}

static inline PDRIVER_OBJECT load_driver(const char *program) {
    if (&DriverPolicy) {
        IocsqSetPolicy(NULL, &DriverPolicy);
    }
    PDRIVER_OBJECT driver = IocsqLoad(DriverEntry);
    if (!driver) {
        fprintf(stderr, "%s: the driver wasn't loaded\n", program);
        exit(1);
    }
    return driver;
}

/* An argument of the program, which is a number. */
static inline long number_of_argument(int argc, char **argv, int at, long least, long most,
                                      const char *usage) {
    char *end = NULL;
    long value = at < argc ? strtol(argv[at], &end, 10) : -1;
    if (!end || *end || value < least || value > most) {
        fprintf(stderr, "%s: argument %d is a number from %ld to %ld\n", usage, at, least, most);
        exit(2);
    }
    return value;
}

/* Takes this option and its number off the front of the arguments. Whether it is there. */
static inline bool take_number(int *argc, char ***argv, const char *option, long most, long *number,
                               const char *usage) {
    if (*argc < 2 || strcmp((*argv)[1], option) != 0) {
        return false;
    }
    *number = number_of_argument(*argc, *argv, 2, 0, most, usage);
    *argc -= 2;
    *argv += 2;
    return true;
}

/* Takes `--stop N`: the run stops for a debugger at call N. Or `--races LEVEL` (IocsqRaces). Or
 * `--iso`: what is volatile orders nothing (IocsqVolatile). */
static inline bool take_option(int *argc, char ***argv, const char *usage) {
    long number;
    if (take_number(argc, argv, "--stop", 1000000000, &number, usage)) {
        IocsqStop((ULONG64)number);
        return true;
    }
    if (take_number(argc, argv, "--races", 3, &number, usage)) {
        IocsqRaces((ULONG)number);
        return true;
    }
    bool iso = *argc > 1 && strcmp((*argv)[1], "--iso") == 0;
    if (iso) {
        IocsqVolatile(FALSE);
        *argc -= 1;
        *argv += 1;
    }
    return iso;
}

#endif
