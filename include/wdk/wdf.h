/* For a driver that includes <wdf.h>. */
#include "../iocsq/wdf.h"
