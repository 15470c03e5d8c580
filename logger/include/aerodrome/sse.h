/* Functions of SSE that read or write by a pointer, as ordinary code, which has hooks: the compiler makes them itself, without any. */
#pragma GCC system_header
#ifndef AERODROME_SSE
#define AERODROME_SSE
#include <aerodrome/function.h>

AERODROME_FUNCTION("sse") __m128 aerodrome_mm_loadh_pi(__m128 value, const __m64 *from) {
    const aerodrome_float *low = (const aerodrome_float *)from;
    return (__m128){value[0], value[1], low[0], low[1]};
}
AERODROME_FUNCTION("sse") __m128 aerodrome_mm_loadl_pi(__m128 value, const __m64 *from) {
    const aerodrome_float *low = (const aerodrome_float *)from;
    return (__m128){low[0], low[1], value[2], value[3]};
}
AERODROME_FUNCTION("sse") void aerodrome_mm_storeh_pi(__m64 *to, __m128 value) {
    aerodrome_float *low = (aerodrome_float *)to;
    low[0] = value[2];
    low[1] = value[3];
}
AERODROME_FUNCTION("sse") void aerodrome_mm_storel_pi(__m64 *to, __m128 value) {
    aerodrome_float *low = (aerodrome_float *)to;
    low[0] = value[0];
    low[1] = value[1];
}
AERODROME_FUNCTION("sse") void aerodrome_mm_stream_ps(float *to, __m128 value) {
    *(__m128 *)to = value;
}
AERODROME_FUNCTION("mmx,sse") void aerodrome_mm_stream_pi(__m64 *to, __m64 value) {
    *(__m64 *)to = value;
}
AERODROME_FUNCTION("mmx,sse") void aerodrome_mm_maskmove_si64(__m64 value, __m64 mask, char *to) {
    __v8qi from = (__v8qi)value, bits = (__v8qi)mask;
    for (int byte = 0; byte < 8; byte++)
        if (bits[byte] & 0x80) to[byte] = from[byte];
}

#undef _mm_loadh_pi
#define _mm_loadh_pi aerodrome_mm_loadh_pi
#undef _mm_loadl_pi
#define _mm_loadl_pi aerodrome_mm_loadl_pi
#undef _mm_storeh_pi
#define _mm_storeh_pi aerodrome_mm_storeh_pi
#undef _mm_storel_pi
#define _mm_storel_pi aerodrome_mm_storel_pi
#undef _mm_stream_ps
#define _mm_stream_ps aerodrome_mm_stream_ps
#undef _mm_stream_pi
#define _mm_stream_pi aerodrome_mm_stream_pi
#undef _mm_maskmove_si64
#define _mm_maskmove_si64 aerodrome_mm_maskmove_si64
#undef _m_maskmovq
#define _m_maskmovq aerodrome_mm_maskmove_si64
#endif
