/* For a driver that includes <wdmsec.h>. */
#include "../iocsq.h"
