/* What programs call that know of -fsanitize=thread, beside its hooks: by its headers sanitizer/tsan_interface.h and
 * common_interface_defs.h, and by macros as ANNOTATE_HAPPENS_BEFORE of Abseil and others.
 *
 *   a lock of readers and writers that is said to be taken or given back  an event, as in locks.c
 *   what is said to happen before, and after                              w(sync.X) and r(sync.X), as for __tsan_release and __tsan_acquire
 *   memory that is said to be given anew, as by a pool                    new variables
 *   an access to what has no memory of its own (__tsan_external_read)     an event
 *   a switch to another stack (a fiber)                                   ends the log, as blocks are those of one stack
 *   races that are benign or expected, what is to be ignored              nothing: what the program does is logged nevertheless */
#include "log.h"
#include "memory.h"

#define UNUSED __attribute__((unused))
#define NOTHING(name, ...) EXPORT void name(__VA_ARGS__) {}
/* The place in the source comes first. */
#define AT const char *file UNUSED, int line UNUSED

/* ---- locks, memory */

NOTHING(AnnotateRWLockCreate, AT, const volatile void *lock UNUSED)
NOTHING(AnnotateRWLockCreateStatic, AT, const volatile void *lock UNUSED)
NOTHING(AnnotateRWLockDestroy, AT, const volatile void *lock UNUSED)
EXPORT void AnnotateRWLockAcquired(AT, const volatile void *lock, long is_writer) {
    aero_acquired((uintptr_t)lock, is_writer ? WRITER : READER, HERE);
}
EXPORT void AnnotateRWLockReleased(AT, const volatile void *lock, long is_writer UNUSED) {
    aero_releasing((uintptr_t)lock, HERE);
}
/* What was never allocated and is no global variable, such as a thread-local one of main's, has the name that its first allocation has. */
static bool has_first_name(uintptr_t at) {
    uintptr_t low = 0, high;
    if (aero_generation(at) != 1) return false;
    aero_symbol_bounds(at, &low, &high);
    return !low;
}
static void renew_again(uintptr_t from, uintptr_t to) {
    if (!aero_enter()) return;
    aero_lock();
    for (uintptr_t at = from &= -(uintptr_t)AERO_PIECE, step; at < to; at += step) {
        step = aero_step(at);
        if (has_first_name(at)) continue;
        aero_renew(from, at);
        from = at + step;
    }
    aero_renew(from, to);
    aero_unlock();
    aero_leave();
}
EXPORT void AnnotateNewMemory(AT, const volatile void *at, long bytes) {
    if (bytes <= 0) return;
    aero_renew((uintptr_t)at, (uintptr_t)at + (uintptr_t)bytes);
    renew_again((uintptr_t)at, (uintptr_t)at + (uintptr_t)bytes);
}

/* ---- order */

#define HAPPENS(name, operation) \
    EXPORT void name(AT, const volatile void *at) { aero_event(operation, "sync.", (uintptr_t)at, HERE); }
HAPPENS(AnnotateHappensBefore, "w")
HAPPENS(AnnotateHappensAfter, "r")
HAPPENS(WTFAnnotateHappensBefore, "w")
HAPPENS(WTFAnnotateHappensAfter, "r")

/* ---- accesses */

EXPORT void __tsan_external_read(void *at, void *code, void *tag UNUSED) { aero_range("r", (uintptr_t)at, 1, (uintptr_t)code); }
EXPORT void __tsan_external_write(void *at, void *code, void *tag UNUSED) { aero_range("w", (uintptr_t)at, 1, (uintptr_t)code); }
EXPORT void *__tsan_external_register_tag(const char *type) { return (void *)type; }
NOTHING(__tsan_external_register_header, void *tag UNUSED, const char *header UNUSED)
NOTHING(__tsan_external_assign_tag, void *at UNUSED, void *tag UNUSED)

#define UNALIGNED(bits) \
    EXPORT uint##bits##_t __sanitizer_unaligned_load##bits(const void *at) { \
        uint##bits##_t value; \
        aero_range("r", (uintptr_t)at, sizeof value, HERE); \
        __builtin_memcpy(&value, at, sizeof value); \
        return value; \
    } \
    EXPORT void __sanitizer_unaligned_store##bits(void *at, uint##bits##_t value) { \
        aero_range("w", (uintptr_t)at, sizeof value, HERE); \
        __builtin_memcpy(at, &value, sizeof value); \
    }
UNALIGNED(16)
UNALIGNED(32)
UNALIGNED(64)

/* ---- fibers */

static char a_fiber;
EXPORT void *__tsan_get_current_fiber(void) { return &aero_me; }
EXPORT void *__tsan_create_fiber(unsigned flags UNUSED) { return &a_fiber; }
NOTHING(__tsan_destroy_fiber, void *fiber UNUSED)
NOTHING(__tsan_set_fiber_name, void *fiber UNUSED, const char *name UNUSED)
EXPORT void __tsan_switch_to_fiber(void *fiber UNUSED, unsigned flags UNUSED) {
    if (!aero_enter()) return;
    aero_lock();
    aero_stop(CUT_FIBER, "the program switches to another stack (__tsan_switch_to_fiber)");
    aero_unlock();
    aero_leave();
}

/* ---- what says nothing of the events */

NOTHING(AnnotateCondVarSignal, AT, const volatile void *condition UNUSED)
NOTHING(AnnotateCondVarSignalAll, AT, const volatile void *condition UNUSED)
NOTHING(AnnotateCondVarWait, AT, const volatile void *condition UNUSED, const volatile void *lock UNUSED)
NOTHING(AnnotateMutexIsNotPHB, AT, const volatile void *lock UNUSED)
NOTHING(AnnotateMutexIsUsedAsCondVar, AT, const volatile void *lock UNUSED)
NOTHING(AnnotatePCQCreate, AT, const volatile void *queue UNUSED)
NOTHING(AnnotatePCQDestroy, AT, const volatile void *queue UNUSED)
NOTHING(AnnotatePCQPut, AT, const volatile void *queue UNUSED)
NOTHING(AnnotatePCQGet, AT, const volatile void *queue UNUSED)
NOTHING(AnnotatePublishMemoryRange, AT, const volatile void *at UNUSED, long bytes UNUSED)
NOTHING(AnnotateUnpublishMemoryRange, AT, const volatile void *at UNUSED, long bytes UNUSED)
NOTHING(AnnotateExpectRace, AT, const volatile void *at UNUSED, const char *why UNUSED)
NOTHING(AnnotateFlushExpectedRaces, AT)
NOTHING(AnnotateBenignRace, AT, const volatile void *at UNUSED, const char *why UNUSED)
NOTHING(AnnotateBenignRaceSized, AT, const volatile void *at UNUSED, long bytes UNUSED,
        const char *why UNUSED)
NOTHING(WTFAnnotateBenignRaceSized, AT, const volatile void *at UNUSED, long bytes UNUSED,
        const char *why UNUSED)
NOTHING(AnnotateIgnoreReadsBegin, AT)
NOTHING(AnnotateIgnoreReadsEnd, AT)
NOTHING(AnnotateIgnoreWritesBegin, AT)
NOTHING(AnnotateIgnoreWritesEnd, AT)
NOTHING(AnnotateIgnoreSyncBegin, AT)
NOTHING(AnnotateIgnoreSyncEnd, AT)
NOTHING(AnnotateEnableRaceDetection, AT, int enable UNUSED)
NOTHING(AnnotateTraceMemory, AT, const volatile void *at UNUSED)
NOTHING(AnnotateFlushState, AT)
NOTHING(AnnotateThreadName, AT, const char *name UNUSED)
NOTHING(AnnotateNoOp, AT, const volatile void *at UNUSED)
NOTHING(AnnotateMemoryIsInitialized, AT, const volatile void *at UNUSED, long bytes UNUSED)
NOTHING(AnnotateMemoryIsUninitialized, AT, const volatile void *at UNUSED, long bytes UNUSED)
EXPORT int RunningOnValgrind(void) { return 0; }
EXPORT double ValgrindSlowdown(void) { return 10; }

NOTHING(__tsan_ignore_thread_begin, void)
NOTHING(__tsan_ignore_thread_end, void)
NOTHING(__tsan_flush_memory, void)

/* Of a report there is none. */
EXPORT void *__tsan_get_current_report(void) { return NULL; }
NOTHING(__sanitizer_print_stack_trace, void)
NOTHING(__sanitizer_set_death_callback, void (*call)(void) UNUSED)
NOTHING(__sanitizer_set_report_path, const char *path UNUSED)
NOTHING(__sanitizer_set_report_fd, void *file UNUSED)
NOTHING(__sanitizer_report_error_summary, const char *summary UNUSED)
EXPORT const char *__sanitizer_get_report_path(void) { return ""; }
EXPORT void __sanitizer_symbolize_pc(void *code UNUSED, const char *format UNUSED, char *to, size_t room) {
    if (room) *to = 0;
}
EXPORT void __sanitizer_symbolize_global(void *at UNUSED, const char *format UNUSED, char *to, size_t room) {
    if (room) *to = 0;
}
