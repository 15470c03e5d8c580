/* Functions of AVX2 that gather numbers, as ordinary code, which has hooks: the compiler makes them itself, without any. */
#pragma GCC system_header
#ifndef AERODROME_GATHER
#define AERODROME_GATHER
#include <aerodrome/function.h>

/* Reads so many numbers, each at its index. Those of a vector that has more are 0. */
#define AERODROME_GATHER(name, kind, type, vector, lanes, signs, index, places, count) \
    AERODROME_FUNCTION("avx2") vector aerodrome##name##gather_##kind(const void *from, index at, int scale) { \
        lanes found = {0}; \
        for (int lane = 0; lane < count; lane++) \
            found[lane] = *(const aerodrome_##type *)((const char *)from + (long long)((places)at)[lane] * scale); \
        return (vector)found; \
    }
#define AERODROME_MASKED_GATHER(name, kind, type, vector, lanes, signs, index, places, count) \
    AERODROME_FUNCTION("avx2") \
    vector aerodrome##name##gather_##kind(vector old, const void *from, index at, vector chosen, int scale) { \
        lanes found = {0}; \
        for (int lane = 0; lane < count; lane++) \
            found[lane] = ((signs)chosen)[lane] < 0 \
                ? *(const aerodrome_##type *)((const char *)from + (long long)((places)at)[lane] * scale) : ((lanes)old)[lane]; \
        return (vector)found; \
    }
AERODROME_GATHER(_mm_i32, epi32, int, __m128i, __v4si, __v4si, __m128i, __v4si, 4)
AERODROME_MASKED_GATHER(_mm_mask_i32, epi32, int, __m128i, __v4si, __v4si, __m128i, __v4si, 4)
AERODROME_GATHER(_mm_i32, ps, float, __m128, __v4sf, __v4si, __m128i, __v4si, 4)
AERODROME_MASKED_GATHER(_mm_mask_i32, ps, float, __m128, __v4sf, __v4si, __m128i, __v4si, 4)
AERODROME_GATHER(_mm_i32, epi64, long, __m128i, __v2di, __v2di, __m128i, __v4si, 2)
AERODROME_MASKED_GATHER(_mm_mask_i32, epi64, long, __m128i, __v2di, __v2di, __m128i, __v4si, 2)
AERODROME_GATHER(_mm_i32, pd, double, __m128d, __v2df, __v2di, __m128i, __v4si, 2)
AERODROME_MASKED_GATHER(_mm_mask_i32, pd, double, __m128d, __v2df, __v2di, __m128i, __v4si, 2)
AERODROME_GATHER(_mm_i64, epi32, int, __m128i, __v4si, __v4si, __m128i, __v2di, 2)
AERODROME_MASKED_GATHER(_mm_mask_i64, epi32, int, __m128i, __v4si, __v4si, __m128i, __v2di, 2)
AERODROME_GATHER(_mm_i64, ps, float, __m128, __v4sf, __v4si, __m128i, __v2di, 2)
AERODROME_MASKED_GATHER(_mm_mask_i64, ps, float, __m128, __v4sf, __v4si, __m128i, __v2di, 2)
AERODROME_GATHER(_mm_i64, epi64, long, __m128i, __v2di, __v2di, __m128i, __v2di, 2)
AERODROME_MASKED_GATHER(_mm_mask_i64, epi64, long, __m128i, __v2di, __v2di, __m128i, __v2di, 2)
AERODROME_GATHER(_mm_i64, pd, double, __m128d, __v2df, __v2di, __m128i, __v2di, 2)
AERODROME_MASKED_GATHER(_mm_mask_i64, pd, double, __m128d, __v2df, __v2di, __m128i, __v2di, 2)
AERODROME_GATHER(_mm256_i32, epi32, int, __m256i, __v8si, __v8si, __m256i, __v8si, 8)
AERODROME_MASKED_GATHER(_mm256_mask_i32, epi32, int, __m256i, __v8si, __v8si, __m256i, __v8si, 8)
AERODROME_GATHER(_mm256_i32, ps, float, __m256, __v8sf, __v8si, __m256i, __v8si, 8)
AERODROME_MASKED_GATHER(_mm256_mask_i32, ps, float, __m256, __v8sf, __v8si, __m256i, __v8si, 8)
AERODROME_GATHER(_mm256_i32, epi64, long, __m256i, __v4di, __v4di, __m128i, __v4si, 4)
AERODROME_MASKED_GATHER(_mm256_mask_i32, epi64, long, __m256i, __v4di, __v4di, __m128i, __v4si, 4)
AERODROME_GATHER(_mm256_i32, pd, double, __m256d, __v4df, __v4di, __m128i, __v4si, 4)
AERODROME_MASKED_GATHER(_mm256_mask_i32, pd, double, __m256d, __v4df, __v4di, __m128i, __v4si, 4)
AERODROME_GATHER(_mm256_i64, epi32, int, __m128i, __v4si, __v4si, __m256i, __v4di, 4)
AERODROME_MASKED_GATHER(_mm256_mask_i64, epi32, int, __m128i, __v4si, __v4si, __m256i, __v4di, 4)
AERODROME_GATHER(_mm256_i64, ps, float, __m128, __v4sf, __v4si, __m256i, __v4di, 4)
AERODROME_MASKED_GATHER(_mm256_mask_i64, ps, float, __m128, __v4sf, __v4si, __m256i, __v4di, 4)
AERODROME_GATHER(_mm256_i64, epi64, long, __m256i, __v4di, __v4di, __m256i, __v4di, 4)
AERODROME_MASKED_GATHER(_mm256_mask_i64, epi64, long, __m256i, __v4di, __v4di, __m256i, __v4di, 4)
AERODROME_GATHER(_mm256_i64, pd, double, __m256d, __v4df, __v4di, __m256i, __v4di, 4)
AERODROME_MASKED_GATHER(_mm256_mask_i64, pd, double, __m256d, __v4df, __v4di, __m256i, __v4di, 4)

#undef _mm_i32gather_epi32
#define _mm_i32gather_epi32 aerodrome_mm_i32gather_epi32
#undef _mm_mask_i32gather_epi32
#define _mm_mask_i32gather_epi32 aerodrome_mm_mask_i32gather_epi32
#undef _mm_i32gather_ps
#define _mm_i32gather_ps aerodrome_mm_i32gather_ps
#undef _mm_mask_i32gather_ps
#define _mm_mask_i32gather_ps aerodrome_mm_mask_i32gather_ps
#undef _mm_i32gather_epi64
#define _mm_i32gather_epi64 aerodrome_mm_i32gather_epi64
#undef _mm_mask_i32gather_epi64
#define _mm_mask_i32gather_epi64 aerodrome_mm_mask_i32gather_epi64
#undef _mm_i32gather_pd
#define _mm_i32gather_pd aerodrome_mm_i32gather_pd
#undef _mm_mask_i32gather_pd
#define _mm_mask_i32gather_pd aerodrome_mm_mask_i32gather_pd
#undef _mm_i64gather_epi32
#define _mm_i64gather_epi32 aerodrome_mm_i64gather_epi32
#undef _mm_mask_i64gather_epi32
#define _mm_mask_i64gather_epi32 aerodrome_mm_mask_i64gather_epi32
#undef _mm_i64gather_ps
#define _mm_i64gather_ps aerodrome_mm_i64gather_ps
#undef _mm_mask_i64gather_ps
#define _mm_mask_i64gather_ps aerodrome_mm_mask_i64gather_ps
#undef _mm_i64gather_epi64
#define _mm_i64gather_epi64 aerodrome_mm_i64gather_epi64
#undef _mm_mask_i64gather_epi64
#define _mm_mask_i64gather_epi64 aerodrome_mm_mask_i64gather_epi64
#undef _mm_i64gather_pd
#define _mm_i64gather_pd aerodrome_mm_i64gather_pd
#undef _mm_mask_i64gather_pd
#define _mm_mask_i64gather_pd aerodrome_mm_mask_i64gather_pd
#undef _mm256_i32gather_epi32
#define _mm256_i32gather_epi32 aerodrome_mm256_i32gather_epi32
#undef _mm256_mask_i32gather_epi32
#define _mm256_mask_i32gather_epi32 aerodrome_mm256_mask_i32gather_epi32
#undef _mm256_i32gather_ps
#define _mm256_i32gather_ps aerodrome_mm256_i32gather_ps
#undef _mm256_mask_i32gather_ps
#define _mm256_mask_i32gather_ps aerodrome_mm256_mask_i32gather_ps
#undef _mm256_i32gather_epi64
#define _mm256_i32gather_epi64 aerodrome_mm256_i32gather_epi64
#undef _mm256_mask_i32gather_epi64
#define _mm256_mask_i32gather_epi64 aerodrome_mm256_mask_i32gather_epi64
#undef _mm256_i32gather_pd
#define _mm256_i32gather_pd aerodrome_mm256_i32gather_pd
#undef _mm256_mask_i32gather_pd
#define _mm256_mask_i32gather_pd aerodrome_mm256_mask_i32gather_pd
#undef _mm256_i64gather_epi32
#define _mm256_i64gather_epi32 aerodrome_mm256_i64gather_epi32
#undef _mm256_mask_i64gather_epi32
#define _mm256_mask_i64gather_epi32 aerodrome_mm256_mask_i64gather_epi32
#undef _mm256_i64gather_ps
#define _mm256_i64gather_ps aerodrome_mm256_i64gather_ps
#undef _mm256_mask_i64gather_ps
#define _mm256_mask_i64gather_ps aerodrome_mm256_mask_i64gather_ps
#undef _mm256_i64gather_epi64
#define _mm256_i64gather_epi64 aerodrome_mm256_i64gather_epi64
#undef _mm256_mask_i64gather_epi64
#define _mm256_mask_i64gather_epi64 aerodrome_mm256_mask_i64gather_epi64
#undef _mm256_i64gather_pd
#define _mm256_i64gather_pd aerodrome_mm256_i64gather_pd
#undef _mm256_mask_i64gather_pd
#define _mm256_mask_i64gather_pd aerodrome_mm256_mask_i64gather_pd
#endif
