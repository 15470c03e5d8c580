/* Copies and fills of constant sizes, each from a global variable to another one that no other copy has. What the compiler makes of
 * them depends on the size, and on how the function is called. */
#define _GNU_SOURCE
#include <stdlib.h>
#include <string.h>
#include <strings.h>
#include <wchar.h>

#define COPY(name, bytes, call) \
    char from_##name##_##bytes[bytes], to_##name##_##bytes[bytes + 1]; \
    __attribute__((noinline)) void name##_##bytes(char *to, const char *from) { call; }
#define COPIES(bytes) \
    COPY(memcpy, bytes, memcpy(to, from, bytes)) \
    COPY(memmove, bytes, memmove(to, from, bytes)) \
    COPY(mempcpy, bytes, mempcpy(to, from, bytes)) \
    COPY(bcopy, bytes, bcopy(from, to, bytes)) \
    COPY(builtin_memcpy, bytes, __builtin_memcpy(to, from, bytes)) \
    COPY(builtin_memmove, bytes, __builtin_memmove(to, from, bytes)) \
    COPY(builtin_mempcpy, bytes, __builtin_mempcpy(to, from, bytes)) \
    COPY(assigned, bytes, struct part { char byte[bytes]; }; *(struct part *)to = *(const struct part *)from) \
    COPY(memset, bytes, memset(to, 1, bytes); (void)from) \
    COPY(zeros, bytes, memset(to, 0, bytes); (void)from) \
    COPY(bzero, bytes, bzero(to, bytes); (void)from) \
    COPY(builtin_memset, bytes, __builtin_memset(to, 0, bytes); (void)from) \
    COPY(initialized, bytes, struct part { char byte[bytes]; }; *(struct part *)to = (struct part){{0}}; (void)from) \
    char from_direct_##bytes[bytes], to_direct_##bytes[bytes], to_filled_##bytes[bytes]; \
    __attribute__((noinline)) void all_##bytes(void) { \
        /* (of these two the compiler knows the room) */ \
        memcpy(to_direct_##bytes, from_direct_##bytes, bytes); \
        memset(to_filled_##bytes, 1, bytes); \
        memcpy_##bytes(to_memcpy_##bytes, from_memcpy_##bytes); \
        memmove_##bytes(to_memmove_##bytes, from_memmove_##bytes); \
        mempcpy_##bytes(to_mempcpy_##bytes, from_mempcpy_##bytes); \
        bcopy_##bytes(to_bcopy_##bytes, from_bcopy_##bytes); \
        builtin_memcpy_##bytes(to_builtin_memcpy_##bytes, from_builtin_memcpy_##bytes); \
        builtin_memmove_##bytes(to_builtin_memmove_##bytes, from_builtin_memmove_##bytes); \
        builtin_mempcpy_##bytes(to_builtin_mempcpy_##bytes, from_builtin_mempcpy_##bytes); \
        assigned_##bytes(to_assigned_##bytes, from_assigned_##bytes); \
        memset_##bytes(to_memset_##bytes, from_memset_##bytes); \
        zeros_##bytes(to_zeros_##bytes, from_zeros_##bytes); \
        bzero_##bytes(to_bzero_##bytes, from_bzero_##bytes); \
        builtin_memset_##bytes(to_builtin_memset_##bytes, from_builtin_memset_##bytes); \
        initialized_##bytes(to_initialized_##bytes, from_initialized_##bytes); \
        /* (not aligned) */ \
        memcpy_##bytes(to_memcpy_##bytes + 1, from_memcpy_##bytes); \
    }
#define SIZES(each) each(1) each(2) each(3) each(4) each(7) each(8) each(9) each(16) each(17) each(24) each(32) each(48) each(100) \
    each(255) each(256) each(257) each(1000)
SIZES(COPIES)

/* Of a text of three bytes; a field of ten bytes is filled with zeros. */
char to_strcpy[10], to_stpcpy[10], to_strncpy[10], to_strcat[10], to_strncat[10], to_builtin_strcpy[10], to_builtin_stpcpy[10],
    to_builtin_strncpy[10], to_stpncpy[10], to_memccpy[10];
wchar_t to_wcscpy[10], to_wcpcpy[10], to_wcsncpy[10], to_wcpncpy[10], to_wcscat[10], to_wcsncat[10], to_wmemcpy[10], to_wmemmove[10],
    to_wmempcpy[10], to_wmemset[10];
char from_strdup[] = "abc", from_strndup[] = "abcdef";
wchar_t from_wcsdup[] = L"abc";
static int texts(void) {
    strcpy(to_strcpy, "abc");
    stpcpy(to_stpcpy, "abc");
    strncpy(to_strncpy, "abc", 10);
    strcat(to_strcat, "abc");
    strncat(to_strncat, "abcd", 3);
    __builtin_strcpy(to_builtin_strcpy, "abc");
    __builtin_stpcpy(to_builtin_stpcpy, "abc");
    __builtin_strncpy(to_builtin_strncpy, "abc", 10);
    wcscpy(to_wcscpy, L"abc");
    wcsncpy(to_wcsncpy, L"abc", 10);
    wcscat(to_wcscat, L"abc");
    wcsncat(to_wcsncat, L"abcd", 3);
    wmemcpy(to_wmemcpy, L"abcd", 3);
    wmemmove(to_wmemmove, L"abcd", 3);
    wmemset(to_wmemset, L'a', 3);
    const wchar_t *wide[] = {to_wcscpy, to_wcsncpy, to_wcscat, to_wcsncat, to_wcpcpy, to_wcpncpy, to_wmemcpy, to_wmemmove, to_wmempcpy};
    int wrong = wcpcpy(to_wcpcpy, L"abc") != to_wcpcpy + 3 || wcpncpy(to_wcpncpy, L"abc", 10) != to_wcpncpy + 3
        || wmempcpy(to_wmempcpy, L"abcd", 3) != to_wmempcpy + 3 || stpncpy(to_stpncpy, "abc", 10) != to_stpncpy + 3
        || memccpy(to_memccpy, "abcd", 'c', 10) != to_memccpy + 3 || wcscmp(to_wmemset, L"aaa");
    for (size_t one = 0; one < sizeof wide / sizeof *wide; one++) wrong |= wcscmp(wide[one], L"abc");
    char *first = strdup(from_strdup), *second = strndup(from_strndup, 3);
    wchar_t *third = wcsdup(from_wcsdup);
    wrong |= strcmp(first, "abc") || strcmp(second, "abc") || wcscmp(third, L"abc");
    free(first), free(second), free(third);
    return wrong;
}

#define CALL(bytes) all_##bytes();
int main(void) {
    SIZES(CALL)
    return texts() || strcmp(to_strcpy, "abc") || strcmp(to_stpcpy, "abc") || strcmp(to_strncpy, "abc") || strcmp(to_strcat, "abc")
        || strcmp(to_strncat, "abc") || to_memset_9[8] != 1;
}
