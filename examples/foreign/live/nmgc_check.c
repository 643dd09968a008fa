/* The calls of nmgc_check.h as functions that a linker finds. */
#define NMGC_API
#include "nmgc_check.h"
