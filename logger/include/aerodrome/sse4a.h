/* Functions of SSE4a that read or write by a pointer, as ordinary code, which has hooks: the compiler makes them itself, without any. */
#pragma GCC system_header
#ifndef AERODROME_SSE4A
#define AERODROME_SSE4A
#include <aerodrome/function.h>

AERODROME_FUNCTION("sse4a") void aerodrome_mm_stream_sd(double *to, __m128d value) {
    *(aerodrome_double *)to = value[0];
}
AERODROME_FUNCTION("sse4a") void aerodrome_mm_stream_ss(float *to, __m128 value) {
    *(aerodrome_float *)to = value[0];
}

#undef _mm_stream_sd
#define _mm_stream_sd aerodrome_mm_stream_sd
#undef _mm_stream_ss
#define _mm_stream_ss aerodrome_mm_stream_ss
#endif
