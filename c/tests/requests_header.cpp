// The same in C++.
#include "requests_header.c"
