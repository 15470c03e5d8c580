/* Stands before the header of the same name of the C library, for gcc. A copy of one, two, four or eight bytes that the compiler knows at
 * compile time is how programs read a number from bytes. It becomes one access, which has its hook, with less work and fewer events than
 * a call. Only while this is read, what memcpy and memmove are made of in the C library's own header, by _FORTIFY_SOURCE, is so too. A
 * program that calls a function of its own by one of these names, as by -Dmemcpy=copies, keeps it. Nothing branches here: in a function with
 * the attribute optimize("O0"), gcc 12 would lose the branch that asks for a constant, with all that follows it. */
#pragma GCC system_header
#if !defined __clang__ && defined __STDC__ && !defined AERODROME_STRING_H
#define AERODROME_STRING_H
#define AERODROME_IS_ONE(bytes) \
    (__builtin_constant_p(bytes) & (((bytes) == 1) | ((bytes) == 2) | ((bytes) == 4) | ((bytes) == 8)))
#pragma push_macro("__builtin___memcpy_chk")
#pragma push_macro("__builtin___memmove_chk")
#undef __builtin___memcpy_chk
#undef __builtin___memmove_chk
#define __builtin___memcpy_chk(to, from, bytes, room) \
    __builtin___memcpy_chk(to, from, bytes, (room) * (AERODROME_IS_ONE(bytes) | !!__builtin_frame_address(0)))
#define __builtin___memmove_chk(to, from, bytes, room) \
    __builtin___memmove_chk(to, from, bytes, (room) * (AERODROME_IS_ONE(bytes) | !!__builtin_frame_address(0)))
#include_next <string.h>
#if defined __extern_always_inline && !(defined __fortify_function && __USE_FORTIFY_LEVEL > 0)
__BEGIN_DECLS
#ifndef memcpy
__extern_always_inline void *__NTH(memcpy(void *__restrict __to, const void *__restrict __from, size_t __bytes)) {
    return __builtin___memcpy_chk(__to, __from, __bytes, __SIZE_MAX__);
}
#endif
#ifndef memmove
__extern_always_inline void *__NTH(memmove(void *__to, const void *__from, size_t __bytes)) {
    return __builtin___memmove_chk(__to, __from, __bytes, __SIZE_MAX__);
}
#endif
__END_DECLS
#endif
#pragma pop_macro("__builtin___memcpy_chk")
#pragma pop_macro("__builtin___memmove_chk")
#undef AERODROME_IS_ONE
#else
#include_next <string.h>
#endif
