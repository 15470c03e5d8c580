/* Stands before the header of the same name of the compiler: what its functions do by a pointer has hooks. (two of the compiler's headers
 * include each other) */
#pragma GCC system_header
#ifndef AERODROME_IMMINTRIN_H
#define AERODROME_IMMINTRIN_H
#include_next <immintrin.h>
#include <aerodrome/avx.h>
#include <aerodrome/gather.h>
#include <aerodrome/numbers.h>
#endif
