/* Each intrinsic of the compiler that reads or writes by a pointer, up to AVX2, with a variable of its name. */
#include <immintrin.h>

long long room[4] __attribute__((aligned(32)));
#define USES(target_name, intrinsic, call) \
    long long intrinsic##_at[4] __attribute__((aligned(32))); \
    __attribute__((target(target_name))) static void use##intrinsic(long long *X) { call; }

USES("sse", _mm_loadh_pi, _mm_storeu_ps((float *)room, _mm_loadh_pi(_mm_set1_ps(1), (__m64 *)X)))
USES("sse", _mm_loadl_pi, _mm_storeu_ps((float *)room, _mm_loadl_pi(_mm_set1_ps(1), (__m64 *)X)))
USES("sse2", _mm_loadh_pd, _mm_storeu_pd((double *)room, _mm_loadh_pd(_mm_set1_pd(1), (double *)X)))
USES("sse2", _mm_loadl_pd, _mm_storeu_pd((double *)room, _mm_loadl_pd(_mm_set1_pd(1), (double *)X)))
USES("sse3", _mm_lddqu_si128, _mm_storeu_si128((__m128i *)room, _mm_lddqu_si128((__m128i *)X)))
USES("sse4.1", _mm_stream_load_si128, _mm_storeu_si128((__m128i *)room, _mm_stream_load_si128((__m128i *)X)))
USES("avx", _mm256_lddqu_si256, _mm256_storeu_si256((__m256i *)room, _mm256_lddqu_si256((__m256i *)X)))
USES("avx2", _mm256_stream_load_si256, _mm256_storeu_si256((__m256i *)room, _mm256_stream_load_si256((__m256i *)X)))
USES("avx", _mm_broadcast_ss, _mm_storeu_ps((float *)room, _mm_broadcast_ss((float *)X)))
USES("avx", _mm256_broadcast_ss, _mm256_storeu_ps((float *)room, _mm256_broadcast_ss((float *)X)))
USES("avx", _mm256_broadcast_sd, _mm256_storeu_pd((double *)room, _mm256_broadcast_sd((double *)X)))
USES("avx", _mm256_broadcast_ps, _mm256_storeu_ps((float *)room, _mm256_broadcast_ps((__m128 *)X)))
USES("avx", _mm256_broadcast_pd, _mm256_storeu_pd((double *)room, _mm256_broadcast_pd((__m128d *)X)))
USES("avx", _mm_maskload_ps, _mm_storeu_ps((float *)room, _mm_maskload_ps((float *)X, _mm_set1_epi8(-1))))
USES("avx", _mm_maskload_pd, _mm_storeu_pd((double *)room, _mm_maskload_pd((double *)X, _mm_set1_epi8(-1))))
USES("avx2", _mm_maskload_epi32, _mm_storeu_si128((__m128i *)room, _mm_maskload_epi32((int *)X, _mm_set1_epi8(-1))))
USES("avx2", _mm_maskload_epi64, _mm_storeu_si128((__m128i *)room, _mm_maskload_epi64((long long *)X, _mm_set1_epi8(-1))))
USES("avx", _mm256_maskload_ps, _mm256_storeu_ps((float *)room, _mm256_maskload_ps((float *)X, _mm256_set1_epi8(-1))))
USES("avx", _mm256_maskload_pd, _mm256_storeu_pd((double *)room, _mm256_maskload_pd((double *)X, _mm256_set1_epi8(-1))))
USES("avx2", _mm256_maskload_epi32, _mm256_storeu_si256((__m256i *)room, _mm256_maskload_epi32((int *)X, _mm256_set1_epi8(-1))))
USES("avx2", _mm256_maskload_epi64, _mm256_storeu_si256((__m256i *)room, _mm256_maskload_epi64((long long *)X, _mm256_set1_epi8(-1))))
USES("avx2", _mm_i32gather_epi32, _mm_storeu_si128((__m128i *)room, _mm_i32gather_epi32((int *)X, _mm_setzero_si128(), 1)))
USES("avx2", _mm_mask_i32gather_epi32, _mm_storeu_si128((__m128i *)room, _mm_mask_i32gather_epi32(_mm_setzero_si128(), (int *)X, _mm_setzero_si128(), _mm_set1_epi8(-1), 1)))
USES("avx2", _mm_i32gather_ps, _mm_storeu_ps((float *)room, _mm_i32gather_ps((float *)X, _mm_setzero_si128(), 1)))
USES("avx2", _mm_mask_i32gather_ps, _mm_storeu_ps((float *)room, _mm_mask_i32gather_ps(_mm_setzero_ps(), (float *)X, _mm_setzero_si128(), _mm_castsi128_ps(_mm_set1_epi8(-1)), 1)))
USES("avx2", _mm_i32gather_epi64, _mm_storeu_si128((__m128i *)room, _mm_i32gather_epi64((long long *)X, _mm_setzero_si128(), 1)))
USES("avx2", _mm_mask_i32gather_epi64, _mm_storeu_si128((__m128i *)room, _mm_mask_i32gather_epi64(_mm_setzero_si128(), (long long *)X, _mm_setzero_si128(), _mm_set1_epi8(-1), 1)))
USES("avx2", _mm_i32gather_pd, _mm_storeu_pd((double *)room, _mm_i32gather_pd((double *)X, _mm_setzero_si128(), 1)))
USES("avx2", _mm_mask_i32gather_pd, _mm_storeu_pd((double *)room, _mm_mask_i32gather_pd(_mm_setzero_pd(), (double *)X, _mm_setzero_si128(), _mm_castsi128_pd(_mm_set1_epi8(-1)), 1)))
USES("avx2", _mm_i64gather_epi32, _mm_storeu_si128((__m128i *)room, _mm_i64gather_epi32((int *)X, _mm_setzero_si128(), 1)))
USES("avx2", _mm_mask_i64gather_epi32, _mm_storeu_si128((__m128i *)room, _mm_mask_i64gather_epi32(_mm_setzero_si128(), (int *)X, _mm_setzero_si128(), _mm_set1_epi8(-1), 1)))
USES("avx2", _mm_i64gather_ps, _mm_storeu_ps((float *)room, _mm_i64gather_ps((float *)X, _mm_setzero_si128(), 1)))
USES("avx2", _mm_mask_i64gather_ps, _mm_storeu_ps((float *)room, _mm_mask_i64gather_ps(_mm_setzero_ps(), (float *)X, _mm_setzero_si128(), _mm_castsi128_ps(_mm_set1_epi8(-1)), 1)))
USES("avx2", _mm_i64gather_epi64, _mm_storeu_si128((__m128i *)room, _mm_i64gather_epi64((long long *)X, _mm_setzero_si128(), 1)))
USES("avx2", _mm_mask_i64gather_epi64, _mm_storeu_si128((__m128i *)room, _mm_mask_i64gather_epi64(_mm_setzero_si128(), (long long *)X, _mm_setzero_si128(), _mm_set1_epi8(-1), 1)))
USES("avx2", _mm_i64gather_pd, _mm_storeu_pd((double *)room, _mm_i64gather_pd((double *)X, _mm_setzero_si128(), 1)))
USES("avx2", _mm_mask_i64gather_pd, _mm_storeu_pd((double *)room, _mm_mask_i64gather_pd(_mm_setzero_pd(), (double *)X, _mm_setzero_si128(), _mm_castsi128_pd(_mm_set1_epi8(-1)), 1)))
USES("avx2", _mm256_i32gather_epi32, _mm256_storeu_si256((__m256i *)room, _mm256_i32gather_epi32((int *)X, _mm256_setzero_si256(), 1)))
USES("avx2", _mm256_mask_i32gather_epi32, _mm256_storeu_si256((__m256i *)room, _mm256_mask_i32gather_epi32(_mm256_setzero_si256(), (int *)X, _mm256_setzero_si256(), _mm256_set1_epi8(-1), 1)))
USES("avx2", _mm256_i32gather_ps, _mm256_storeu_ps((float *)room, _mm256_i32gather_ps((float *)X, _mm256_setzero_si256(), 1)))
USES("avx2", _mm256_mask_i32gather_ps, _mm256_storeu_ps((float *)room, _mm256_mask_i32gather_ps(_mm256_setzero_ps(), (float *)X, _mm256_setzero_si256(), _mm256_castsi256_ps(_mm256_set1_epi8(-1)), 1)))
USES("avx2", _mm256_i32gather_epi64, _mm256_storeu_si256((__m256i *)room, _mm256_i32gather_epi64((long long *)X, _mm_setzero_si128(), 1)))
USES("avx2", _mm256_mask_i32gather_epi64, _mm256_storeu_si256((__m256i *)room, _mm256_mask_i32gather_epi64(_mm256_setzero_si256(), (long long *)X, _mm_setzero_si128(), _mm256_set1_epi8(-1), 1)))
USES("avx2", _mm256_i32gather_pd, _mm256_storeu_pd((double *)room, _mm256_i32gather_pd((double *)X, _mm_setzero_si128(), 1)))
USES("avx2", _mm256_mask_i32gather_pd, _mm256_storeu_pd((double *)room, _mm256_mask_i32gather_pd(_mm256_setzero_pd(), (double *)X, _mm_setzero_si128(), _mm256_castsi256_pd(_mm256_set1_epi8(-1)), 1)))
USES("avx2", _mm256_i64gather_epi32, _mm_storeu_si128((__m128i *)room, _mm256_i64gather_epi32((int *)X, _mm256_setzero_si256(), 1)))
USES("avx2", _mm256_mask_i64gather_epi32, _mm_storeu_si128((__m128i *)room, _mm256_mask_i64gather_epi32(_mm_setzero_si128(), (int *)X, _mm256_setzero_si256(), _mm_set1_epi8(-1), 1)))
USES("avx2", _mm256_i64gather_ps, _mm_storeu_ps((float *)room, _mm256_i64gather_ps((float *)X, _mm256_setzero_si256(), 1)))
USES("avx2", _mm256_mask_i64gather_ps, _mm_storeu_ps((float *)room, _mm256_mask_i64gather_ps(_mm_setzero_ps(), (float *)X, _mm256_setzero_si256(), _mm_castsi128_ps(_mm_set1_epi8(-1)), 1)))
USES("avx2", _mm256_i64gather_epi64, _mm256_storeu_si256((__m256i *)room, _mm256_i64gather_epi64((long long *)X, _mm256_setzero_si256(), 1)))
USES("avx2", _mm256_mask_i64gather_epi64, _mm256_storeu_si256((__m256i *)room, _mm256_mask_i64gather_epi64(_mm256_setzero_si256(), (long long *)X, _mm256_setzero_si256(), _mm256_set1_epi8(-1), 1)))
USES("avx2", _mm256_i64gather_pd, _mm256_storeu_pd((double *)room, _mm256_i64gather_pd((double *)X, _mm256_setzero_si256(), 1)))
USES("avx2", _mm256_mask_i64gather_pd, _mm256_storeu_pd((double *)room, _mm256_mask_i64gather_pd(_mm256_setzero_pd(), (double *)X, _mm256_setzero_si256(), _mm256_castsi256_pd(_mm256_set1_epi8(-1)), 1)))
USES("sse", _mm_stream_ps, _mm_stream_ps((float *)X, _mm_set1_ps(1)))
USES("mmx,sse", _mm_stream_pi, _mm_stream_pi((__m64 *)X, _mm_set1_pi8(1)))
USES("mmx,sse", _mm_maskmove_si64, _mm_maskmove_si64(_mm_set1_pi8(1), _mm_set1_pi8(-1), (char *)X))
USES("sse", _mm_storeh_pi, _mm_storeh_pi((__m64 *)X, _mm_set1_ps(1)))
USES("sse", _mm_storel_pi, _mm_storel_pi((__m64 *)X, _mm_set1_ps(1)))
USES("sse2", _mm_stream_pd, _mm_stream_pd((double *)X, _mm_set1_pd(1)))
USES("sse2", _mm_stream_si128, _mm_stream_si128((__m128i *)X, _mm_set1_epi8(1)))
USES("sse2", _mm_stream_si32, _mm_stream_si32((int *)X, 1))
USES("sse2", _mm_stream_si64, _mm_stream_si64(X, 1))
USES("sse2", _mm_maskmoveu_si128, _mm_maskmoveu_si128(_mm_set1_epi8(1), _mm_set1_epi8(-1), (char *)X))
USES("sse2", _mm_storeh_pd, _mm_storeh_pd((double *)X, _mm_set1_pd(1)))
USES("sse2", _mm_storel_pd, _mm_storel_pd((double *)X, _mm_set1_pd(1)))
USES("avx", _mm256_stream_ps, _mm256_stream_ps((float *)X, _mm256_set1_ps(1)))
USES("avx", _mm256_stream_pd, _mm256_stream_pd((double *)X, _mm256_set1_pd(1)))
USES("avx", _mm256_stream_si256, _mm256_stream_si256((__m256i *)X, _mm256_set1_epi8(1)))
USES("avx", _mm_maskstore_ps, _mm_maskstore_ps((float *)X, _mm_set1_epi8(-1), _mm_set1_ps(1)))
USES("avx", _mm_maskstore_pd, _mm_maskstore_pd((double *)X, _mm_set1_epi8(-1), _mm_set1_pd(1)))
USES("avx2", _mm_maskstore_epi32, _mm_maskstore_epi32((int *)X, _mm_set1_epi8(-1), _mm_set1_epi8(-1)))
USES("avx2", _mm_maskstore_epi64, _mm_maskstore_epi64((long long *)X, _mm_set1_epi8(-1), _mm_set1_epi8(-1)))
USES("avx", _mm256_maskstore_ps, _mm256_maskstore_ps((float *)X, _mm256_set1_epi8(-1), _mm256_set1_ps(1)))
USES("avx", _mm256_maskstore_pd, _mm256_maskstore_pd((double *)X, _mm256_set1_epi8(-1), _mm256_set1_pd(1)))
USES("avx2", _mm256_maskstore_epi32, _mm256_maskstore_epi32((int *)X, _mm256_set1_epi8(-1), _mm256_set1_epi8(-1)))
USES("avx2", _mm256_maskstore_epi64, _mm256_maskstore_epi64((long long *)X, _mm256_set1_epi8(-1), _mm256_set1_epi8(-1)))
USES("sse", _addcarry_u32, _addcarry_u32(0, 1, 2, (unsigned *)X))
USES("sse", _addcarry_u64, _addcarry_u64(0, 1, 2, (unsigned long long *)X))
USES("sse", _subborrow_u32, _subborrow_u32(0, 1, 2, (unsigned *)X))
USES("sse", _subborrow_u64, _subborrow_u64(0, 1, 2, (unsigned long long *)X))
USES("adx", _addcarryx_u32, _addcarryx_u32(0, 1, 2, (unsigned *)X))
USES("adx", _addcarryx_u64, _addcarryx_u64(0, 1, 2, (unsigned long long *)X))
USES("rdrnd", _rdrand16_step, _rdrand16_step((unsigned short *)X))
USES("rdrnd", _rdrand32_step, _rdrand32_step((unsigned *)X))
USES("rdrnd", _rdrand64_step, _rdrand64_step((unsigned long long *)X))
USES("rdseed", _rdseed16_step, _rdseed16_step((unsigned short *)X))
USES("rdseed", _rdseed32_step, _rdseed32_step((unsigned *)X))
USES("rdseed", _rdseed64_step, _rdseed64_step((unsigned long long *)X))

int main(void) {
    use_mm_loadh_pi(_mm_loadh_pi_at);
    use_mm_loadl_pi(_mm_loadl_pi_at);
    use_mm_loadh_pd(_mm_loadh_pd_at);
    use_mm_loadl_pd(_mm_loadl_pd_at);
    use_mm_lddqu_si128(_mm_lddqu_si128_at);
    use_mm_stream_load_si128(_mm_stream_load_si128_at);
    use_mm256_lddqu_si256(_mm256_lddqu_si256_at);
    use_mm256_stream_load_si256(_mm256_stream_load_si256_at);
    use_mm_broadcast_ss(_mm_broadcast_ss_at);
    use_mm256_broadcast_ss(_mm256_broadcast_ss_at);
    use_mm256_broadcast_sd(_mm256_broadcast_sd_at);
    use_mm256_broadcast_ps(_mm256_broadcast_ps_at);
    use_mm256_broadcast_pd(_mm256_broadcast_pd_at);
    use_mm_maskload_ps(_mm_maskload_ps_at);
    use_mm_maskload_pd(_mm_maskload_pd_at);
    use_mm_maskload_epi32(_mm_maskload_epi32_at);
    use_mm_maskload_epi64(_mm_maskload_epi64_at);
    use_mm256_maskload_ps(_mm256_maskload_ps_at);
    use_mm256_maskload_pd(_mm256_maskload_pd_at);
    use_mm256_maskload_epi32(_mm256_maskload_epi32_at);
    use_mm256_maskload_epi64(_mm256_maskload_epi64_at);
    use_mm_i32gather_epi32(_mm_i32gather_epi32_at);
    use_mm_mask_i32gather_epi32(_mm_mask_i32gather_epi32_at);
    use_mm_i32gather_ps(_mm_i32gather_ps_at);
    use_mm_mask_i32gather_ps(_mm_mask_i32gather_ps_at);
    use_mm_i32gather_epi64(_mm_i32gather_epi64_at);
    use_mm_mask_i32gather_epi64(_mm_mask_i32gather_epi64_at);
    use_mm_i32gather_pd(_mm_i32gather_pd_at);
    use_mm_mask_i32gather_pd(_mm_mask_i32gather_pd_at);
    use_mm_i64gather_epi32(_mm_i64gather_epi32_at);
    use_mm_mask_i64gather_epi32(_mm_mask_i64gather_epi32_at);
    use_mm_i64gather_ps(_mm_i64gather_ps_at);
    use_mm_mask_i64gather_ps(_mm_mask_i64gather_ps_at);
    use_mm_i64gather_epi64(_mm_i64gather_epi64_at);
    use_mm_mask_i64gather_epi64(_mm_mask_i64gather_epi64_at);
    use_mm_i64gather_pd(_mm_i64gather_pd_at);
    use_mm_mask_i64gather_pd(_mm_mask_i64gather_pd_at);
    use_mm256_i32gather_epi32(_mm256_i32gather_epi32_at);
    use_mm256_mask_i32gather_epi32(_mm256_mask_i32gather_epi32_at);
    use_mm256_i32gather_ps(_mm256_i32gather_ps_at);
    use_mm256_mask_i32gather_ps(_mm256_mask_i32gather_ps_at);
    use_mm256_i32gather_epi64(_mm256_i32gather_epi64_at);
    use_mm256_mask_i32gather_epi64(_mm256_mask_i32gather_epi64_at);
    use_mm256_i32gather_pd(_mm256_i32gather_pd_at);
    use_mm256_mask_i32gather_pd(_mm256_mask_i32gather_pd_at);
    use_mm256_i64gather_epi32(_mm256_i64gather_epi32_at);
    use_mm256_mask_i64gather_epi32(_mm256_mask_i64gather_epi32_at);
    use_mm256_i64gather_ps(_mm256_i64gather_ps_at);
    use_mm256_mask_i64gather_ps(_mm256_mask_i64gather_ps_at);
    use_mm256_i64gather_epi64(_mm256_i64gather_epi64_at);
    use_mm256_mask_i64gather_epi64(_mm256_mask_i64gather_epi64_at);
    use_mm256_i64gather_pd(_mm256_i64gather_pd_at);
    use_mm256_mask_i64gather_pd(_mm256_mask_i64gather_pd_at);
    use_mm_stream_ps(_mm_stream_ps_at);
    use_mm_stream_pi(_mm_stream_pi_at);
    use_mm_maskmove_si64(_mm_maskmove_si64_at);
    use_mm_storeh_pi(_mm_storeh_pi_at);
    use_mm_storel_pi(_mm_storel_pi_at);
    use_mm_stream_pd(_mm_stream_pd_at);
    use_mm_stream_si128(_mm_stream_si128_at);
    use_mm_stream_si32(_mm_stream_si32_at);
    use_mm_stream_si64(_mm_stream_si64_at);
    use_mm_maskmoveu_si128(_mm_maskmoveu_si128_at);
    use_mm_storeh_pd(_mm_storeh_pd_at);
    use_mm_storel_pd(_mm_storel_pd_at);
    use_mm256_stream_ps(_mm256_stream_ps_at);
    use_mm256_stream_pd(_mm256_stream_pd_at);
    use_mm256_stream_si256(_mm256_stream_si256_at);
    use_mm_maskstore_ps(_mm_maskstore_ps_at);
    use_mm_maskstore_pd(_mm_maskstore_pd_at);
    use_mm_maskstore_epi32(_mm_maskstore_epi32_at);
    use_mm_maskstore_epi64(_mm_maskstore_epi64_at);
    use_mm256_maskstore_ps(_mm256_maskstore_ps_at);
    use_mm256_maskstore_pd(_mm256_maskstore_pd_at);
    use_mm256_maskstore_epi32(_mm256_maskstore_epi32_at);
    use_mm256_maskstore_epi64(_mm256_maskstore_epi64_at);
    use_addcarry_u32(_addcarry_u32_at);
    use_addcarry_u64(_addcarry_u64_at);
    use_subborrow_u32(_subborrow_u32_at);
    use_subborrow_u64(_subborrow_u64_at);
    use_addcarryx_u32(_addcarryx_u32_at);
    use_addcarryx_u64(_addcarryx_u64_at);
    use_rdrand16_step(_rdrand16_step_at);
    use_rdrand32_step(_rdrand32_step_at);
    use_rdrand64_step(_rdrand64_step_at);
    use_rdseed16_step(_rdseed16_step_at);
    use_rdseed32_step(_rdseed32_step_at);
    use_rdseed64_step(_rdseed64_step_at);
    _mm_empty();
    return 0;
}
