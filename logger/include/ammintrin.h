/* Stands before the header of the same name of the compiler: what its functions do by a pointer has hooks. (two of the compiler's headers
 * include each other) */
#pragma GCC system_header
#ifndef AERODROME_AMMINTRIN_H
#define AERODROME_AMMINTRIN_H
#include_next <ammintrin.h>
#include <aerodrome/sse4a.h>
#endif
