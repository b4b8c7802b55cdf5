/* What IocsqCoverage names, with the skeleton's driver: coverage nothing|completed|cancelled|both
 * [never]. The first says what happens to the reads; with `never` the policy says that the driver
 * does no more than that. */
#include "iocsq_test.h"

#include <stdio.h>
#include <string.h>

extern DRIVER_INITIALIZE DriverEntry;

static const struct way {
    const char *name;
    int completed, cancelled;
    IOCSQ_POLICY never; /* what a driver's policy says that never does more */
} ways[] = {
    { "nothing", 0, 0, { .NeverInserts = TRUE } },
    { "completed", 1, 0, { .NeverCancelled = TRUE } },
    { "cancelled", 0, 1, { .NeverRemoves = TRUE } },
    { "both", 1, 1, { .NeverInserts = FALSE } },
};

static void run(const struct way *way) {
    PDRIVER_OBJECT driver = IocsqLoad(DriverEntry);
    PFILE_OBJECT file = IocsqOpen(driver);
    unsigned char buffer;
    if (way->completed) {
        IOCSQ_REQUEST *read = IocsqSend(file, IRP_MJ_READ, &buffer, 1);
        IocsqFree(IocsqSend(file, IRP_MJ_WRITE, &buffer, 1));
        IocsqFree(read);
    }
    if (way->cancelled) {
        IOCSQ_REQUEST *read = IocsqSend(file, IRP_MJ_READ, &buffer, 1);
        IocsqCancel(read);
        IocsqFree(read);
    }
    IocsqClose(file);
    IocsqUnload(driver);
}

int main(int argc, char **argv) {
    for (size_t at = 0; at < sizeof ways / sizeof *ways; at++) {
        if (argc > 1 && strcmp(argv[1], ways[at].name) == 0) {
            if (argc > 2) {
                IocsqSetPolicy(NULL, &ways[at].never);
            }
            run(&ways[at]);
            return IocsqCoverage() ? 0 : IOCSQ_TESTED_NOTHING;
        }
    }
    fprintf(stderr, "coverage nothing|completed|cancelled|both [never]\n");
    return 2;
}
