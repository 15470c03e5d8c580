/* Stands before the header of the same name of the compiler: what its functions do by a pointer has hooks. (two of the compiler's headers
 * include each other) */
#pragma GCC system_header
#ifndef AERODROME_EMMINTRIN_H
#define AERODROME_EMMINTRIN_H
#include_next <emmintrin.h>
#include <aerodrome/sse2.h>
#endif
