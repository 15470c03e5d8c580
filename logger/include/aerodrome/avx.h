/* Functions of AVX and AVX2 that read or write by a pointer, as ordinary code, which has hooks: the compiler makes them itself, without any. */
#pragma GCC system_header
#ifndef AERODROME_AVX
#define AERODROME_AVX
#include <aerodrome/function.h>

/* (clang has no hooks for an access to 32 bytes) */
AERODROME_FUNCTION("avx") void aerodrome_put_halves(void *to, __v4di value) {
    __m128i_u *halves = (__m128i_u *)to;
    halves[0] = (__m128i_u)(__v2di){value[0], value[1]};
    halves[1] = (__m128i_u)(__v2di){value[2], value[3]};
}
AERODROME_FUNCTION("avx") __m256i aerodrome_halves_at(const void *from) {
    const __m128i_u *halves = (const __m128i_u *)from;
    __v2di low = (__v2di)halves[0], high = (__v2di)halves[1];
    return (__m256i)(__v4di){low[0], low[1], high[0], high[1]};
}

AERODROME_FUNCTION("avx") void aerodrome_mm256_stream_si256(__m256i *to, __m256i value) { aerodrome_put_halves(to, (__v4di)value); }
AERODROME_FUNCTION("avx") void aerodrome_mm256_stream_pd(double *to, __m256d value) { aerodrome_put_halves(to, (__v4di)value); }
AERODROME_FUNCTION("avx") void aerodrome_mm256_stream_ps(float *to, __m256 value) { aerodrome_put_halves(to, (__v4di)value); }
AERODROME_FUNCTION("avx") __m256i aerodrome_mm256_lddqu_si256(const __m256i *from) { return aerodrome_halves_at(from); }
AERODROME_FUNCTION("avx2") __m256i aerodrome_mm256_stream_load_si256(const void *from) { return aerodrome_halves_at(from); }
AERODROME_FUNCTION("avx") __m128 aerodrome_mm_broadcast_ss(const float *from) {
    float value = *(const aerodrome_float *)from;
    return (__m128){value, value, value, value};
}
AERODROME_FUNCTION("avx") __m256 aerodrome_mm256_broadcast_ss(const float *from) {
    float value = *(const aerodrome_float *)from;
    return (__m256){value, value, value, value, value, value, value, value};
}
AERODROME_FUNCTION("avx") __m256d aerodrome_mm256_broadcast_sd(const double *from) {
    double value = *(const aerodrome_double *)from;
    return (__m256d){value, value, value, value};
}
AERODROME_FUNCTION("avx") __m256d aerodrome_mm256_broadcast_pd(const __m128d *from) {
    __m128d half = _mm_loadu_pd((const double *)from);
    return (__m256d){half[0], half[1], half[0], half[1]};
}
AERODROME_FUNCTION("avx") __m256 aerodrome_mm256_broadcast_ps(const __m128 *from) {
    __m128 half = _mm_loadu_ps((const float *)from);
    return (__m256){half[0], half[1], half[2], half[3], half[0], half[1], half[2], half[3]};
}

/* Each number whose mask has its highest bit. */
#define AERODROME_MASKED(target, name, kind, type, vector, lanes, mask, signs, count) \
    AERODROME_FUNCTION(target) vector aerodrome##name##_maskload_##kind(const void *from, mask chosen) { \
        lanes found = {0}; \
        for (int lane = 0; lane < count; lane++) \
            if (((signs)chosen)[lane] < 0) found[lane] = ((const aerodrome_##type *)from)[lane]; \
        return (vector)found; \
    } \
    AERODROME_FUNCTION(target) void aerodrome##name##_maskstore_##kind(void *to, mask chosen, vector value) { \
        for (int lane = 0; lane < count; lane++) \
            if (((signs)chosen)[lane] < 0) ((aerodrome_##type *)to)[lane] = ((lanes)value)[lane]; \
    }
AERODROME_MASKED("avx", _mm, ps, float, __m128, __v4sf, __m128i, __v4si, 4)
AERODROME_MASKED("avx", _mm, pd, double, __m128d, __v2df, __m128i, __v2di, 2)
AERODROME_MASKED("avx", _mm256, ps, float, __m256, __v8sf, __m256i, __v8si, 8)
AERODROME_MASKED("avx", _mm256, pd, double, __m256d, __v4df, __m256i, __v4di, 4)
AERODROME_MASKED("avx2", _mm, epi32, int, __m128i, __v4si, __m128i, __v4si, 4)
AERODROME_MASKED("avx2", _mm, epi64, long, __m128i, __v2di, __m128i, __v2di, 2)
AERODROME_MASKED("avx2", _mm256, epi32, int, __m256i, __v8si, __m256i, __v8si, 8)
AERODROME_MASKED("avx2", _mm256, epi64, long, __m256i, __v4di, __m256i, __v4di, 4)

#undef _mm256_stream_si256
#define _mm256_stream_si256 aerodrome_mm256_stream_si256
#undef _mm256_stream_pd
#define _mm256_stream_pd aerodrome_mm256_stream_pd
#undef _mm256_stream_ps
#define _mm256_stream_ps aerodrome_mm256_stream_ps
#undef _mm256_lddqu_si256
#define _mm256_lddqu_si256 aerodrome_mm256_lddqu_si256
#undef _mm256_stream_load_si256
#define _mm256_stream_load_si256 aerodrome_mm256_stream_load_si256
#undef _mm_broadcast_ss
#define _mm_broadcast_ss aerodrome_mm_broadcast_ss
#undef _mm256_broadcast_ss
#define _mm256_broadcast_ss aerodrome_mm256_broadcast_ss
#undef _mm256_broadcast_sd
#define _mm256_broadcast_sd aerodrome_mm256_broadcast_sd
#undef _mm256_broadcast_pd
#define _mm256_broadcast_pd aerodrome_mm256_broadcast_pd
#undef _mm256_broadcast_ps
#define _mm256_broadcast_ps aerodrome_mm256_broadcast_ps
#undef _mm_maskload_ps
#define _mm_maskload_ps aerodrome_mm_maskload_ps
#undef _mm_maskstore_ps
#define _mm_maskstore_ps aerodrome_mm_maskstore_ps
#undef _mm_maskload_pd
#define _mm_maskload_pd aerodrome_mm_maskload_pd
#undef _mm_maskstore_pd
#define _mm_maskstore_pd aerodrome_mm_maskstore_pd
#undef _mm_maskload_epi32
#define _mm_maskload_epi32 aerodrome_mm_maskload_epi32
#undef _mm_maskstore_epi32
#define _mm_maskstore_epi32 aerodrome_mm_maskstore_epi32
#undef _mm_maskload_epi64
#define _mm_maskload_epi64 aerodrome_mm_maskload_epi64
#undef _mm_maskstore_epi64
#define _mm_maskstore_epi64 aerodrome_mm_maskstore_epi64
#undef _mm256_maskload_ps
#define _mm256_maskload_ps aerodrome_mm256_maskload_ps
#undef _mm256_maskstore_ps
#define _mm256_maskstore_ps aerodrome_mm256_maskstore_ps
#undef _mm256_maskload_pd
#define _mm256_maskload_pd aerodrome_mm256_maskload_pd
#undef _mm256_maskstore_pd
#define _mm256_maskstore_pd aerodrome_mm256_maskstore_pd
#undef _mm256_maskload_epi32
#define _mm256_maskload_epi32 aerodrome_mm256_maskload_epi32
#undef _mm256_maskstore_epi32
#define _mm256_maskstore_epi32 aerodrome_mm256_maskstore_epi32
#undef _mm256_maskload_epi64
#define _mm256_maskload_epi64 aerodrome_mm256_maskload_epi64
#undef _mm256_maskstore_epi64
#define _mm256_maskstore_epi64 aerodrome_mm256_maskstore_epi64
#endif
