/* Functions of string.h, strings.h and wchar.h that copy and fill. Programs are linked so that a call of memcpy leads to __wrap_memcpy
 * (--wrap). */
#include "log.h"
#include "memory.h"

#include <stdlib.h>
#include <string.h>
#include <strings.h>
#include <wchar.h>

extern void *__real_memmove(void *, const void *, size_t), *__real_memset(void *, int, size_t);

/* A copy reads its source before it writes its target. */
static void *copied(void *to, const void *from, size_t bytes, uintptr_t code) {
    aero_range("r", (uintptr_t)from, bytes, code);
    aero_range("w", (uintptr_t)to, bytes, code);
    return __real_memmove(to, from, bytes);
}
static void *filled(void *to, int value, size_t bytes, uintptr_t code) {
    aero_range("w", (uintptr_t)to, bytes, code);
    return __real_memset(to, value, bytes);
}

/* ---- of so many bytes */

/* What __memcpy_chk and the like check, that the target has room, is left to them. */
#define COPIES(name, result) \
    EXPORT void *__wrap_##name(void *to, const void *from, size_t bytes) { return (char *)copied(to, from, bytes, HERE) + (result); } \
    EXPORT void *__tsan_##name(void *to, const void *from, size_t bytes) { return (char *)copied(to, from, bytes, HERE) + (result); } \
    extern void *__real___##name##_chk(void *, const void *, size_t, size_t); \
    EXPORT void *__wrap___##name##_chk(void *to, const void *from, size_t bytes, size_t room) { \
        if (bytes > room) return __real___##name##_chk(to, from, bytes, room); \
        return (char *)copied(to, from, bytes, HERE) + (result); \
    }
COPIES(memcpy, 0)
COPIES(memmove, 0)
COPIES(mempcpy, bytes)
extern void *__real___memset_chk(void *, int, size_t, size_t);
EXPORT void *__wrap_memset(void *to, int value, size_t bytes) { return filled(to, value, bytes, HERE); }
EXPORT void *__tsan_memset(void *to, int value, size_t bytes) { return filled(to, value, bytes, HERE); }
EXPORT void *__wrap___memset_chk(void *to, int value, size_t bytes, size_t room) {
    return bytes > room ? __real___memset_chk(to, value, bytes, room) : filled(to, value, bytes, HERE);
}
EXPORT void __wrap_bcopy(const void *from, void *to, size_t bytes) { copied(to, from, bytes, HERE); }
EXPORT void __wrap_bzero(void *to, size_t bytes) { filled(to, 0, bytes, HERE); }

/* ---- of so many wide characters */

#define NO_LIMIT (SIZE_MAX / sizeof(wchar_t))
#define WIDE_COPIES(name, result) \
    EXPORT wchar_t *__wrap_##name(wchar_t *to, const wchar_t *from, size_t count) { \
        return (wchar_t *)copied(to, from, count * sizeof *to, HERE) + (result); \
    } \
    extern wchar_t *__real___##name##_chk(wchar_t *, const wchar_t *, size_t, size_t); \
    EXPORT wchar_t *__wrap___##name##_chk(wchar_t *to, const wchar_t *from, size_t count, size_t room) { \
        if (count > room) return __real___##name##_chk(to, from, count, room); \
        return (wchar_t *)copied(to, from, count * sizeof *to, HERE) + (result); \
    }
WIDE_COPIES(wmemcpy, 0)
WIDE_COPIES(wmemmove, 0)
WIDE_COPIES(wmempcpy, count)
static wchar_t *widely_filled(wchar_t *to, wchar_t value, size_t count, uintptr_t code) {
    aero_range("w", (uintptr_t)to, count * sizeof *to, code);
    for (size_t place = 0; place < count; place++) to[place] = value;
    return to;
}
extern wchar_t *__real___wmemset_chk(wchar_t *, wchar_t, size_t, size_t);
EXPORT wchar_t *__wrap_wmemset(wchar_t *to, wchar_t value, size_t count) { return widely_filled(to, value, count, HERE); }
EXPORT wchar_t *__wrap___wmemset_chk(wchar_t *to, wchar_t value, size_t count, size_t room) {
    return count > room ? __real___wmemset_chk(to, value, count, room) : widely_filled(to, value, count, HERE);
}

/* ---- up to a 0, in texts of bytes and of wide characters */

/* kind##_read      the text, or so many characters of it
 * kind##_new       the text that lies in new memory; NULL: there was none
 * kind##_copied    the text and the 0 behind it; returns where that is
 * kind##_field     at most so many characters, and fills the rest of them; returns where the text ends
 * kind##_appended  at most so many characters, and a 0; the text that is there is read up to its end, which is written */
#define OF_TEXTS(kind, type, length_of, length_within) \
    static void kind##_read(const type *from, size_t most, uintptr_t code) { \
        size_t length = length_within(from, most); \
        aero_range("r", (uintptr_t)from, (length < most ? length + 1 : most) * sizeof *from, code); \
    } \
    static type *kind##_new(type *to, uintptr_t code) { \
        if (to) aero_range("w", (uintptr_t)to, (length_of(to) + 1) * sizeof *to, code); \
        return to; \
    } \
    static type *kind##_copied(type *to, const type *from, uintptr_t code) { \
        size_t length = length_of(from); \
        copied(to, from, (length + 1) * sizeof *to, code); \
        return to + length; \
    } \
    static type *kind##_field(type *to, const type *from, size_t most, uintptr_t code) { \
        size_t length = length_within(from, most); \
        kind##_read(from, most, code); \
        aero_range("w", (uintptr_t)to, most * sizeof *to, code); \
        __real_memmove(to, from, length * sizeof *to); \
        __real_memset(to + length, 0, (most - length) * sizeof *to); \
        return to + length; \
    } \
    static type *kind##_appended(type *to, const type *from, size_t most, uintptr_t code) { \
        size_t there = length_of(to), length = length_within(from, most); \
        aero_range("r", (uintptr_t)to, (there + 1) * sizeof *to, code); \
        kind##_read(from, most, code); \
        aero_range("w", (uintptr_t)(to + there), (length + 1) * sizeof *to, code); \
        __real_memmove(to + there, from, length * sizeof *to); \
        to[there + length] = 0; \
        return to; \
    }
OF_TEXTS(text, char, strlen, strnlen)
OF_TEXTS(wide, wchar_t, wcslen, wcsnlen)

/* The function, and that which checks the room: `needs` is how many characters it wants there. */
#define TEXTS(type, name, needs, work, arguments, ...) \
    EXPORT type *__wrap_##name(type *to, const type *from __VA_ARGS__) { return work; } \
    extern type *__real___##name##_chk(type *, const type * __VA_ARGS__, size_t); \
    EXPORT type *__wrap___##name##_chk(type *to, const type *from __VA_ARGS__, size_t room) { \
        if ((needs) > room) return __real___##name##_chk(to, from arguments, room); \
        return work; \
    }
#define AND ,
TEXTS(char, strcpy, strlen(from) + 1, (text_copied(to, from, HERE), to), )
TEXTS(char, stpcpy, strlen(from) + 1, text_copied(to, from, HERE), )
TEXTS(char, strncpy, most, (text_field(to, from, most, HERE), to), AND most, AND size_t most)
TEXTS(char, stpncpy, most, text_field(to, from, most, HERE), AND most, AND size_t most)
TEXTS(char, strcat, strlen(to) + strlen(from) + 1, text_appended(to, from, NO_LIMIT, HERE), )
TEXTS(char, strncat, strlen(to) + strnlen(from, most) + 1, text_appended(to, from, most, HERE), AND most, AND size_t most)
TEXTS(wchar_t, wcscpy, wcslen(from) + 1, (wide_copied(to, from, HERE), to), )
TEXTS(wchar_t, wcpcpy, wcslen(from) + 1, wide_copied(to, from, HERE), )
TEXTS(wchar_t, wcsncpy, most, (wide_field(to, from, most, HERE), to), AND most, AND size_t most)
TEXTS(wchar_t, wcpncpy, most, wide_field(to, from, most, HERE), AND most, AND size_t most)
TEXTS(wchar_t, wcscat, wcslen(to) + wcslen(from) + 1, wide_appended(to, from, NO_LIMIT, HERE), )
TEXTS(wchar_t, wcsncat, wcslen(to) + wcsnlen(from, most) + 1, wide_appended(to, from, most, HERE), AND most, AND size_t most)

/* (a program may have one of its own, for memory of its own) */
#define DUPLICATES(kind, type, name, most, arguments, ...) \
    extern type *__real_##name(const type * __VA_ARGS__); \
    EXPORT type *__wrap_##name(const type *from __VA_ARGS__) { \
        kind##_read(from, most, HERE); \
        return kind##_new(__real_##name(from arguments), HERE); \
    }
DUPLICATES(text, char, strdup, NO_LIMIT, )
DUPLICATES(text, char, strndup, bytes, AND bytes, AND size_t bytes)
DUPLICATES(wide, wchar_t, wcsdup, NO_LIMIT, )

/* Up to the first such byte, with it. */
EXPORT void *__wrap_memccpy(void *to, const void *from, int byte, size_t most) {
    const char *last = memchr(from, byte, most);
    size_t bytes = last ? (size_t)(last + 1 - (const char *)from) : most;
    copied(to, from, bytes, HERE);
    return last ? (char *)to + bytes : NULL;
}
