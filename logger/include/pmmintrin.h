/* Stands before the header of the same name of the compiler: what its functions do by a pointer has hooks. (two of the compiler's headers
 * include each other) */
#pragma GCC system_header
#ifndef AERODROME_PMMINTRIN_H
#define AERODROME_PMMINTRIN_H
#include_next <pmmintrin.h>
#include <aerodrome/sse3.h>
#endif
