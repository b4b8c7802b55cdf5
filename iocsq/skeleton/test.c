/* What @NAME@ does in order, one call after the other. The storm looks for what goes wrong between
 * threads. */
#include "iocsq_test.h"

#include <stdlib.h>

extern DRIVER_INITIALIZE DriverEntry;
/* Of policy.c, where there is one. */
extern const IOCSQ_POLICY DriverPolicy __attribute__((weak));

static void must(int holds, const char *what) {
    if (!holds) {
        fprintf(stderr, "test: %s\n", what);
        exit(1);
    }
}

/* A read waits until a write of its own file object. */
static void a_write_completes_the_oldest_read(PDRIVER_OBJECT driver) {
    PFILE_OBJECT file = IocsqOpen(driver), other = IocsqOpen(driver);
    unsigned char buffer[3];
    IOCSQ_REQUEST *oldest = IocsqSend(file, IRP_MJ_READ, &buffer[0], 1);
    IOCSQ_REQUEST *younger = IocsqSend(file, IRP_MJ_READ, &buffer[1], 1);
    IocsqFree(IocsqSend(other, IRP_MJ_WRITE, &buffer[2], 1));
    must(IocsqStatus(oldest) == STATUS_PENDING, "a write of another file object completed a read");
    IocsqFree(IocsqSend(file, IRP_MJ_WRITE, &buffer[2], 1));
    must(IocsqStatus(oldest) == STATUS_SUCCESS, "a write did not complete the oldest read");
    must(IocsqStatus(younger) == STATUS_PENDING, "a write completed two reads");
    must(IocsqCancel(younger), "a read that waits was not cancelled");
    must(IocsqStatus(younger) == STATUS_CANCELLED, "a cancelled read has another status");
    IocsqFree(oldest);
    IocsqFree(younger);
    IocsqClose(file);
    IocsqClose(other);
}

/* The cleanup of a file object cancels what waits for it. */
static void a_cleanup_cancels_what_waits(PDRIVER_OBJECT driver) {
    PFILE_OBJECT file = IocsqOpen(driver);
    unsigned char buffer;
    IOCSQ_REQUEST *read = IocsqSend(file, IRP_MJ_READ, &buffer, 1);
    IocsqClose(file);
    must(IocsqStatus(read) == STATUS_CANCELLED, "a cleanup left a read that waits");
    IocsqFree(read);
}

int main(void) {
    PDRIVER_OBJECT driver;
    if (&DriverPolicy) {
        IocsqSetPolicy(NULL, &DriverPolicy);
    }
    driver = IocsqLoad(DriverEntry);
    must(driver != NULL, "the driver was not loaded");
    a_write_completes_the_oldest_read(driver);
    a_cleanup_cancels_what_waits(driver);
    IocsqUnload(driver);
    puts("test: passed");
    return 0;
}
