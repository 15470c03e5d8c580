/* Functions of SSE3 that read or write by a pointer, as ordinary code, which has hooks: the compiler makes them itself, without any. */
#pragma GCC system_header
#ifndef AERODROME_SSE3
#define AERODROME_SSE3
#include <aerodrome/function.h>

AERODROME_FUNCTION("sse3") __m128i aerodrome_mm_lddqu_si128(const __m128i *from) {
    return _mm_loadu_si128((const __m128i_u *)from);
}

#undef _mm_lddqu_si128
#define _mm_lddqu_si128 aerodrome_mm_lddqu_si128
#endif
