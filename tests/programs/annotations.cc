// What programs call under -fsanitize=thread beside its hooks, as the headers of compilers and of Abseil declare it.
#include <cstddef>
#include <cstdint>
#include <cstdio>
#include <cstring>
#include <sanitizer/common_interface_defs.h>
#include <sanitizer/tsan_interface.h>
#include <thread>

#define EACH_AT(name) extern "C" void name(const char *, int, const volatile void *);
#define EACH_SIZED(name) extern "C" void name(const char *, int, const volatile void *, long);
#define EACH_PLAIN(name) extern "C" void name(const char *, int);
#define EACH_WHY(name) extern "C" void name(const char *, int, const volatile void *, const char *);
EACH_AT(AnnotateRWLockCreate) EACH_AT(AnnotateRWLockCreateStatic) EACH_AT(AnnotateRWLockDestroy)
EACH_SIZED(AnnotateRWLockAcquired) EACH_SIZED(AnnotateRWLockReleased) EACH_SIZED(AnnotateNewMemory)
EACH_AT(AnnotateHappensBefore) EACH_AT(AnnotateHappensAfter) EACH_AT(WTFAnnotateHappensBefore) EACH_AT(WTFAnnotateHappensAfter)
EACH_AT(AnnotateCondVarSignal) EACH_AT(AnnotateCondVarSignalAll) EACH_AT(AnnotateMutexIsNotPHB) EACH_AT(AnnotateMutexIsUsedAsCondVar)
EACH_AT(AnnotatePCQCreate) EACH_AT(AnnotatePCQDestroy) EACH_AT(AnnotatePCQPut) EACH_AT(AnnotatePCQGet)
EACH_SIZED(AnnotatePublishMemoryRange) EACH_SIZED(AnnotateUnpublishMemoryRange)
EACH_WHY(AnnotateExpectRace) EACH_WHY(AnnotateBenignRace) EACH_PLAIN(AnnotateFlushExpectedRaces) EACH_PLAIN(AnnotateFlushState)
EACH_PLAIN(AnnotateIgnoreReadsBegin) EACH_PLAIN(AnnotateIgnoreReadsEnd) EACH_PLAIN(AnnotateIgnoreWritesBegin)
EACH_PLAIN(AnnotateIgnoreWritesEnd) EACH_PLAIN(AnnotateIgnoreSyncBegin) EACH_PLAIN(AnnotateIgnoreSyncEnd)
EACH_AT(AnnotateTraceMemory) EACH_AT(AnnotateNoOp) EACH_SIZED(AnnotateMemoryIsInitialized) EACH_SIZED(AnnotateMemoryIsUninitialized)
extern "C" {
void AnnotateCondVarWait(const char *, int, const volatile void *, const volatile void *);
void AnnotateBenignRaceSized(const char *, int, const volatile void *, long, const char *);
void WTFAnnotateBenignRaceSized(const char *, int, const volatile void *, long, const char *);
void AnnotateEnableRaceDetection(const char *, int, int);
void AnnotateThreadName(const char *, int, const char *);
int RunningOnValgrind(void);
double ValgrindSlowdown(void);
void __tsan_ignore_thread_begin(void);
void __tsan_ignore_thread_end(void);
}
#define HERE __FILE__, __LINE__

static char lock, order, object, ignored, pool[64];

__attribute__((no_sanitize("thread"))) static void says_each() {
    AnnotateRWLockCreate(HERE, &lock);
    AnnotateRWLockAcquired(HERE, &lock, 1);
    AnnotateRWLockReleased(HERE, &lock, 1);
    AnnotateRWLockAcquired(HERE, &lock, 0);
    AnnotateRWLockReleased(HERE, &lock, 0);
    AnnotateRWLockDestroy(HERE, &lock);
    AnnotateRWLockCreateStatic(HERE, &lock);
    __tsan_mutex_create(&lock, 0);
    __tsan_mutex_pre_lock(&lock, 0);
    __tsan_mutex_post_lock(&lock, 0, 0);
    __tsan_mutex_pre_unlock(&lock, 0);
    __tsan_mutex_post_unlock(&lock, 0);
    __tsan_mutex_pre_signal(&lock, 0);
    __tsan_mutex_post_signal(&lock, 0);
    __tsan_mutex_pre_divert(&lock, 0);
    __tsan_mutex_post_divert(&lock, 0);
    __tsan_mutex_destroy(&lock, 0);
    AnnotateHappensBefore(HERE, &order);
    AnnotateHappensAfter(HERE, &order);
    WTFAnnotateHappensBefore(HERE, &order);
    WTFAnnotateHappensAfter(HERE, &order);
    __tsan_release(&order);
    __tsan_acquire(&order);
    void *tag = __tsan_external_register_tag("object");
    __tsan_external_register_header(tag, "header");
    __tsan_external_assign_tag(&object, tag);
    __tsan_external_write(&object, (void *)says_each, tag);
    __tsan_external_read(&object, (void *)says_each, tag);
    __sanitizer_unaligned_store32(pool + 4, 7);
    if (__sanitizer_unaligned_load32(pool + 4) != 7) std::puts("not 7");
    AnnotateCondVarSignal(HERE, &ignored);
    AnnotateCondVarSignalAll(HERE, &ignored);
    AnnotateCondVarWait(HERE, &ignored, &ignored);
    AnnotateMutexIsNotPHB(HERE, &ignored);
    AnnotateMutexIsUsedAsCondVar(HERE, &ignored);
    AnnotatePCQCreate(HERE, &ignored);
    AnnotatePCQPut(HERE, &ignored);
    AnnotatePCQGet(HERE, &ignored);
    AnnotatePCQDestroy(HERE, &ignored);
    AnnotatePublishMemoryRange(HERE, &ignored, 1);
    AnnotateUnpublishMemoryRange(HERE, &ignored, 1);
    AnnotateExpectRace(HERE, &ignored, "");
    AnnotateFlushExpectedRaces(HERE);
    AnnotateBenignRace(HERE, &ignored, "");
    AnnotateBenignRaceSized(HERE, &ignored, 1, "");
    WTFAnnotateBenignRaceSized(HERE, &ignored, 1, "");
    AnnotateEnableRaceDetection(HERE, 1);
    AnnotateTraceMemory(HERE, &ignored);
    AnnotateFlushState(HERE);
    AnnotateThreadName(HERE, "name");
    AnnotateNoOp(HERE, &ignored);
    AnnotateMemoryIsInitialized(HERE, &ignored, 1);
    AnnotateMemoryIsUninitialized(HERE, &ignored, 1);
    if (RunningOnValgrind() || ValgrindSlowdown() < 1) std::puts("on valgrind");
    __tsan_flush_memory();
    __sanitizer_set_report_path("report");
    __sanitizer_set_death_callback(nullptr);
    __sanitizer_print_stack_trace();
    char text[8] = "text";
    __sanitizer_symbolize_pc((void *)says_each, "%p", text, sizeof text);
    if (*text) std::puts("a place");
}

// What stands between these is logged nevertheless.
static void ignores() {
    AnnotateIgnoreReadsBegin(HERE);
    AnnotateIgnoreWritesBegin(HERE);
    AnnotateIgnoreSyncBegin(HERE);
    __tsan_ignore_thread_begin();
    ignored = 1;
    __tsan_ignore_thread_end();
    AnnotateIgnoreSyncEnd(HERE);
    AnnotateIgnoreWritesEnd(HERE);
    AnnotateIgnoreReadsEnd(HERE);
}

// A pool gives the same bytes twice: they are two variables.
static char *given;
static void from_pool() {
    AnnotateNewMemory(HERE, given, 16);
    *given = 1;
}

int main(int words, char **) {
    given = new char[16];
    says_each();
    ignores();
    from_pool();
    from_pool();
    // (of what was never allocated nothing is kept)
    AnnotateNewMemory(HERE, reinterpret_cast<void *>(1l << 40), 1l << 45);
    if (words > 1) {
        void *fiber = __tsan_create_fiber(0);
        __tsan_set_fiber_name(fiber, "fiber");
        if (!__tsan_get_current_fiber()) std::puts("no fiber");
        __tsan_switch_to_fiber(fiber, 0);
        ignored = 2;
        __tsan_destroy_fiber(fiber);
    }
    delete[] given;
    return 0;
}
