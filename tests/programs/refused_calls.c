/* Refuses calls of the C library to a program that is started with this library before it. REFUSE names the calls, and AT is the number of
 * the one that is refused, counted from 1 once the program has begun. With ON all after it are too. If a call was refused, there is a file
 * "met". */
#define _GNU_SOURCE
#include <dlfcn.h>
#include <errno.h>
#include <fcntl.h>
#include <pthread.h>
#include <signal.h>
#include <stdarg.h>
#include <stdlib.h>
#include <string.h>
#include <sys/syscall.h>
#include <unistd.h>

static const char *refused;
static long at;
static int on;
static long count;
static long (*real_syscall)(long, ...);

/* The value of the variable, or NULL; the C library may not have begun, so that getenv knows none. */
static const char *value(const char *name) {
    static char all[1 << 17];
    size_t length = strlen(name), end = 0;
    long file = syscall(SYS_openat, AT_FDCWD, "/proc/self/environ", O_RDONLY), more;
    while (end < sizeof all - 1 && (more = syscall(SYS_read, file, all + end, sizeof all - 1 - end)) > 0) end += (size_t)more;
    syscall(SYS_close, file);
    for (char *one = all; one < all + end; one += strlen(one) + 1)
        if (strncmp(one, name, length) == 0 && one[length] == '=') return one + length + 1;
    return NULL;
}

__attribute__((constructor)) static void begin(void) {
    *(void **)&real_syscall = dlsym(RTLD_NEXT, "syscall");
    at = value("AT") ? atol(value("AT")) : 0;
    on = value("ON") != NULL;
    refused = value("REFUSE");
}

/* Whether this call is refused: of those that are counted, where they are so called. */
static int is_refused(const char *call, int error) {
    if (refused == NULL || strcmp(refused, call) != 0)
        return 0;
    long number = __atomic_add_fetch(&count, 1, __ATOMIC_SEQ_CST);
    if (number != at && !(on && number > at))
        return 0;
    syscall(SYS_close, syscall(SYS_openat, AT_FDCWD, "met", O_WRONLY | O_CREAT, 0600));
    errno = error;
    return 1;
}

/* The file that says how many processors there are, while it is open. Its calls aren't counted. */
static int processors = -1;

ssize_t read(int file, void *bytes, size_t size) {
    if (file == processors) {
        processors = -1;
        return syscall(SYS_read, file, bytes, size);
    }
    return is_refused("read", EIO) ? -1 : syscall(SYS_read, file, bytes, size);
}

ssize_t write(int file, const void *bytes, size_t size) {
    if (is_refused("write", EIO) || is_refused("write to a full disk", ENOSPC))
        return -1;
    return syscall(SYS_write, file, bytes, size);
}

static int opened(int folder, const char *path, int flags, int mode) {
    if (strncmp(path, "/sys/", 5) == 0)
        return processors = (int)syscall(SYS_openat, folder, path, flags, mode);
    return is_refused("open", EACCES) ? -1 : (int)syscall(SYS_openat, folder, path, flags, mode);
}

static int mode_of(int flags, va_list words) { return flags & (O_CREAT | O_TMPFILE) ? va_arg(words, int) : 0; }

int openat(int folder, const char *path, int flags, ...) {
    va_list words;
    va_start(words, flags);
    int mode = mode_of(flags, words);
    va_end(words);
    return opened(folder, path, flags, mode);
}

int open(const char *path, int flags, ...) {
    va_list words;
    va_start(words, flags);
    int mode = mode_of(flags, words);
    va_end(words);
    return opened(AT_FDCWD, path, flags, mode);
}

int open64(const char *path, int flags, ...) __attribute__((alias("open")));

int openat64(int folder, const char *path, int flags, ...) __attribute__((alias("openat")));

int pthread_create(pthread_t *thread, const pthread_attr_t *how, void *(*run)(void *), void *given) {
    static int (*real)(pthread_t *, const pthread_attr_t *, void *(*)(void *), void *);
    if (is_refused("thread", EAGAIN))
        return EAGAIN;
    if (real == NULL)
        real = dlsym(RTLD_NEXT, "pthread_create");
    return real(thread, how, run, given);
}

void *__libc_malloc(size_t);
void *__libc_calloc(size_t, size_t);
void *__libc_realloc(void *, size_t);
void *__libc_memalign(size_t, size_t);

void *malloc(size_t size) { return is_refused("growth", ENOMEM) ? NULL : __libc_malloc(size); }

void *calloc(size_t number, size_t size) { return is_refused("growth", ENOMEM) ? NULL : __libc_calloc(number, size); }

void *realloc(void *old, size_t size) { return is_refused("growth", ENOMEM) ? NULL : __libc_realloc(old, size); }

void *aligned_alloc(size_t place, size_t size) {
    return is_refused("growth", ENOMEM) ? NULL : __libc_memalign(place, size);
}

int posix_memalign(void **made, size_t place, size_t size) {
    if (is_refused("growth", ENOMEM))
        return ENOMEM;
    *made = __libc_memalign(place, size);
    return *made == NULL ? ENOMEM : 0;
}

/* ---- calls of one function each, by its name; `result` is what it returns when it refuses */

#define REFUSES(name, result, error, arguments, ...) \
    int name(__VA_ARGS__) { \
        static int (*real)(__VA_ARGS__); \
        if (is_refused(#name, error)) return result; \
        if (!real) *(void **)&real = dlsym(RTLD_NEXT, #name); \
        return real arguments; \
    }
REFUSES(fork, -1, EIO, (), void)
REFUSES(chdir, -1, EIO, (path), const char *path)
REFUSES(dup2, -1, EIO, (from, to), int from, int to)
REFUSES(ftruncate, -1, EIO, (file, size), int file, off_t size)
REFUSES(sigaltstack, -1, EIO, (now, before), const stack_t *now, stack_t *before)
REFUSES(pthread_key_create, EAGAIN, EAGAIN, (key, end), pthread_key_t *key, void (*end)(void *))
REFUSES(pthread_setspecific, ENOMEM, ENOMEM, (key, value), pthread_key_t key, const void *value)
REFUSES(__cxa_at_quick_exit, -1, ENOMEM, (end, object), void (*end)(void *), void *object)

/* It is called before this library begins. */
int __register_atfork(void (*before)(void), void (*in_parent)(void), void (*in_child)(void), void *object) {
    static int (*real)(void (*)(void), void (*)(void), void (*)(void), void *);
    if (refused == NULL)
        begin();
    if (is_refused("__register_atfork", ENOMEM))
        return ENOMEM;
    if (real == NULL)
        *(void **)&real = dlsym(RTLD_NEXT, "__register_atfork");
    return real(before, in_parent, in_child, object);
}

/* Only for files with great numbers, as the logger's. They are closed nevertheless. */
int close(int file) {
    long result = syscall(SYS_close, file);
    return file >= 700 && is_refused("close", EIO) ? -1 : (int)result;
}

/* Only where the flags of a file are set. */
int fcntl(int file, int what, ...) {
    va_list words;
    va_start(words, what);
    long with = va_arg(words, long);
    va_end(words);
    return what == F_SETFL && is_refused("fcntl", EIO) ? -1 : (int)syscall(SYS_fcntl, file, what, with);
}

int fcntl64(int file, int what, ...) __attribute__((alias("fcntl")));

static const char *name_of(long number) {
#ifdef SYS_fork
    if (number == SYS_fork) return "fork";
#endif
    if (number == SYS_pwrite64) return "pwrite64";
    return number == SYS_clone ? "fork" : number == SYS_ppoll ? "ppoll" : number == SYS_tgkill ? "tgkill" : "no call";
}

long syscall(long number, ...) {
    long with[6];
    va_list list;
    va_start(list, number);
    for (size_t place = 0; place < 6; place++) with[place] = va_arg(list, long);
    va_end(list);
    if (is_refused(name_of(number), EIO)) return -1;
    if (!real_syscall) *(void **)&real_syscall = dlsym(RTLD_NEXT, "syscall");
    return real_syscall(number, with[0], with[1], with[2], with[3], with[4], with[5]);
}
