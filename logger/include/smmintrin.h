/* Stands before the header of the same name of the compiler: what its functions do by a pointer has hooks. (two of the compiler's headers
 * include each other) */
#pragma GCC system_header
#ifndef AERODROME_SMMINTRIN_H
#define AERODROME_SMMINTRIN_H
#include_next <smmintrin.h>
#include <aerodrome/sse4.h>
#endif
