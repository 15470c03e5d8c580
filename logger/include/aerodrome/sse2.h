/* Functions of SSE2 that read or write by a pointer, as ordinary code, which has hooks: the compiler makes them itself, without any. */
#pragma GCC system_header
#ifndef AERODROME_SSE2
#define AERODROME_SSE2
#include <aerodrome/function.h>

AERODROME_FUNCTION("sse2") __m128d aerodrome_mm_loadh_pd(__m128d value, const double *from) {
    return (__m128d){value[0], *(const aerodrome_double *)from};
}
AERODROME_FUNCTION("sse2") __m128d aerodrome_mm_loadl_pd(__m128d value, const double *from) {
    return (__m128d){*(const aerodrome_double *)from, value[1]};
}
AERODROME_FUNCTION("sse2") void aerodrome_mm_storeh_pd(double *to, __m128d value) {
    *(aerodrome_double *)to = value[1];
}
AERODROME_FUNCTION("sse2") void aerodrome_mm_storel_pd(double *to, __m128d value) {
    *(aerodrome_double *)to = value[0];
}
AERODROME_FUNCTION("sse2") void aerodrome_mm_stream_pd(double *to, __m128d value) {
    *(__m128d *)to = value;
}
AERODROME_FUNCTION("sse2") void aerodrome_mm_stream_si128(__m128i *to, __m128i value) {
    *(__m128i *)to = value;
}
AERODROME_FUNCTION("sse2") void aerodrome_mm_stream_si32(int *to, int value) {
    *(int *)to = value;
}
AERODROME_FUNCTION("sse2") void aerodrome_mm_stream_si64(long long *to, long long value) {
    *(long long *)to = value;
}
AERODROME_FUNCTION("sse2") void aerodrome_mm_maskmoveu_si128(__m128i value, __m128i mask, char *to) {
    __v16qi from = (__v16qi)value, bits = (__v16qi)mask;
    for (int byte = 0; byte < 16; byte++)
        if (bits[byte] & 0x80) to[byte] = from[byte];
}

#undef _mm_loadh_pd
#define _mm_loadh_pd aerodrome_mm_loadh_pd
#undef _mm_loadl_pd
#define _mm_loadl_pd aerodrome_mm_loadl_pd
#undef _mm_storeh_pd
#define _mm_storeh_pd aerodrome_mm_storeh_pd
#undef _mm_storel_pd
#define _mm_storel_pd aerodrome_mm_storel_pd
#undef _mm_stream_pd
#define _mm_stream_pd aerodrome_mm_stream_pd
#undef _mm_stream_si128
#define _mm_stream_si128 aerodrome_mm_stream_si128
#undef _mm_stream_si32
#define _mm_stream_si32 aerodrome_mm_stream_si32
#undef _mm_stream_si64
#define _mm_stream_si64 aerodrome_mm_stream_si64
#undef _mm_maskmoveu_si128
#define _mm_maskmoveu_si128 aerodrome_mm_maskmoveu_si128
#endif
