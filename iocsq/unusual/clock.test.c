#include "../hand/ends.h"
