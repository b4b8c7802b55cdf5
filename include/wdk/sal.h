/* For a driver that includes <sal.h>. */
#include "../iocsq.h"
