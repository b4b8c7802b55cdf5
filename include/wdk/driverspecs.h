/* For a driver that includes <driverspecs.h>. */
#include "../iocsq.h"
