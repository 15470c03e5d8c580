/* How functions that stand in the place of the compiler's begin: each is a part of its caller, and has its hooks. */
#pragma GCC system_header
#ifndef AERODROME_FUNCTION
#define AERODROME_FUNCTION(target) \
    extern __inline __attribute__((__gnu_inline__, __always_inline__, __artificial__, __target__(target)))
/* Numbers that lie anywhere. */
typedef int aerodrome_int __attribute__((__may_alias__, __aligned__(1)));
typedef long long aerodrome_long __attribute__((__may_alias__, __aligned__(1)));
typedef float aerodrome_float __attribute__((__may_alias__, __aligned__(1)));
typedef double aerodrome_double __attribute__((__may_alias__, __aligned__(1)));
#endif
