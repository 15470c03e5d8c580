/* Functions of gcc that write a number by a pointer, as ordinary code, which has hooks. Clang has hooks for them. */
#pragma GCC system_header
#if !defined __clang__ && !defined AERODROME_NUMBERS
#define AERODROME_NUMBERS
#include <aerodrome/function.h>

/* Writes the sum or the difference to the place, and returns the carry. */
#define AERODROME_CARRY(function, name, type) \
    function unsigned char aerodrome_##name(unsigned char carry, type one, type other, type *to) { \
        type result; \
        carry = _##name(carry, one, other, &result); \
        *to = result; \
        return carry; \
    }
/* (each processor has these: they ask for none, which a caller might not have) */
#define AERODROME_PLAIN extern __inline __attribute__((__gnu_inline__, __always_inline__, __artificial__))
AERODROME_CARRY(AERODROME_PLAIN, addcarry_u32, unsigned)
AERODROME_CARRY(AERODROME_PLAIN, subborrow_u32, unsigned)
AERODROME_CARRY(AERODROME_PLAIN, addcarry_u64, unsigned long long)
AERODROME_CARRY(AERODROME_PLAIN, subborrow_u64, unsigned long long)
AERODROME_CARRY(AERODROME_FUNCTION("adx"), addcarryx_u32, unsigned)
AERODROME_CARRY(AERODROME_FUNCTION("adx"), addcarryx_u64, unsigned long long)

/* Writes a random number to the place, and returns whether the processor had one. */
#define AERODROME_RANDOM(target, name, type) \
    AERODROME_FUNCTION(target) int aerodrome_##name(type *to) { \
        type result; \
        int is_there = _##name(&result); \
        *to = result; \
        return is_there; \
    }
AERODROME_RANDOM("rdrnd", rdrand16_step, unsigned short)
AERODROME_RANDOM("rdrnd", rdrand32_step, unsigned)
AERODROME_RANDOM("rdrnd", rdrand64_step, unsigned long long)
AERODROME_RANDOM("rdseed", rdseed16_step, unsigned short)
AERODROME_RANDOM("rdseed", rdseed32_step, unsigned)
AERODROME_RANDOM("rdseed", rdseed64_step, unsigned long long)
#undef AERODROME_CARRY
#undef AERODROME_PLAIN
#undef AERODROME_RANDOM

#undef _addcarry_u32
#define _addcarry_u32 aerodrome_addcarry_u32
#undef _addcarryx_u32
#define _addcarryx_u32 aerodrome_addcarryx_u32
#undef _subborrow_u32
#define _subborrow_u32 aerodrome_subborrow_u32
#undef _addcarry_u64
#define _addcarry_u64 aerodrome_addcarry_u64
#undef _addcarryx_u64
#define _addcarryx_u64 aerodrome_addcarryx_u64
#undef _subborrow_u64
#define _subborrow_u64 aerodrome_subborrow_u64
#undef _rdrand16_step
#define _rdrand16_step aerodrome_rdrand16_step
#undef _rdrand32_step
#define _rdrand32_step aerodrome_rdrand32_step
#undef _rdrand64_step
#define _rdrand64_step aerodrome_rdrand64_step
#undef _rdseed16_step
#define _rdseed16_step aerodrome_rdseed16_step
#undef _rdseed32_step
#define _rdseed32_step aerodrome_rdseed32_step
#undef _rdseed64_step
#define _rdseed64_step aerodrome_rdseed64_step
#endif
