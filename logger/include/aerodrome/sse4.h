/* Functions of SSE4.1 that read or write by a pointer, as ordinary code, which has hooks: the compiler makes them itself, without any. */
#pragma GCC system_header
#ifndef AERODROME_SSE4
#define AERODROME_SSE4
#include <aerodrome/function.h>

AERODROME_FUNCTION("sse4.1") __m128i aerodrome_mm_stream_load_si128(const void *from) {
    return *(const __m128i *)from;
}

#undef _mm_stream_load_si128
#define _mm_stream_load_si128 aerodrome_mm_stream_load_si128
#endif
