#include "../hand/waiting.h"
