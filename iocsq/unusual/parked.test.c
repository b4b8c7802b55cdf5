#include "switched.h"
