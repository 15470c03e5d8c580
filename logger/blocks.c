/* Blocks: the begins and ends of functions, and those that longjmp leaves. */
#include "log.h"

#include <setjmp.h>
#include <string.h>
#include <ucontext.h>

/* Of a frame's block, in the log: it was split where it waits, and is to begin again. */
enum { CLOSED, OPEN, SPLIT };

bool aero_has_begun;

static bool has_room(struct thread *me) {
    bool has_room = aero_has_room((void **)&me->frames, sizeof *me->frames, me->depth, &me->room);
    if (LIKELY(has_room && (me->has_end || aero_end_with_thread()))) return true;
    aero_lock();
    aero_stop(CUT_MEMORY, "out of memory");
    aero_unlock();
    return false;
}

/* Whether it is the function that a thread other than main's starts with, and no signal handler: below it are at most functions of
 * the runtime, by which std::thread calls it. */
static bool is_start(const struct thread *me) {
    return me->number != 1 && me->depth == me->leading && me->depth + 1 != me->handler;
}

/* Whether it is a test of Rust: its thread starts with a closure that stands in the function itself, f::{{closure}}, and that calls
 * it. */
static bool is_test(const struct thread *me, const struct code *function) {
    static const char closure[] = "::{{closure}}";
    if (me->number == 1 || me->depth != me->leading + 1) return false;
    const struct code *start = me->frames[me->depth - 1].function;
    const char *label = function->label, *around = start ? start->label : NULL;
    size_t length = strlen(label);
    return around && !strncmp(label, around, length) && !strcmp(around + length, closure);
}

/* In the runtime, events have the place from where other code has called that. */
static void note_outside(struct thread *me, const struct frame *top, bool is_runtime) {
    if (is_runtime && me->depth == me->leading) me->leading++;
    if (!is_runtime) me->outside = 0;
    else if (!me->outside && me->depth) me->outside = top->call;
}

static bool is_own(const struct thread *me, uintptr_t at) { return at - me->low < me->high - me->low; }
static void note_top(struct thread *me) {
    uintptr_t at = me->depth ? me->frames[me->depth - 1].at : UINTPTR_MAX;
    me->top = !me->depth || is_own(me, at) ? at : 0;
}

/* What a frame says of its begin changes where the line is written: a signal handler may leave from anywhere by longjmp. A process
 * that ends between the two writes no end that has no begin. */
static void push(const struct code *function, uintptr_t frame, uintptr_t call) {
    struct thread *me = &aero_me;
    if (!has_room(me)) return;
    struct frame *top = &me->frames[me->depth];
    int kind = function ? atomic_load_explicit(&function->kind, memory_order_relaxed) : 0;
    bool is_block = kind & IS_BLOCK && (aero_starts_are_blocks() || !(is_start(me) || is_test(me, function)));
    if (UNLIKELY(kind & RELOCKS)) aero_split_blocks(true);
    *top = (struct frame){frame, function, call, me->outside, CLOSED};
    if (UNLIKELY(kind & IS_RUNTIME || me->outside)) note_outside(me, top, kind & IS_RUNTIME);
    me->depth++;
    note_top(me);
    if (is_block) {
        aero_lock();
        aero_line("begin", "", 0, function->label, call);
        top->block = OPEN;
        aero_has_begun = true;
        aero_unlock();
    }
    if (UNLIKELY(kind >= LOCK_FUNCTION)) aero_enter_lock_function((enum lock_call)(kind / LOCK_FUNCTION), call);
}
static void pop(uintptr_t code) {
    struct thread *me = &aero_me;
    struct frame *top = &me->frames[me->depth - 1];
    if (UNLIKELY(me->locking.what && me->locking.depth == me->depth)) aero_leave_lock_function(code);
    if (top->block == OPEN) {
        aero_lock();
        top->block = CLOSED;
        aero_line("end", NULL, 0, NULL, code);
        aero_unlock();
    }
    me->outside = top->outside;
    me->depth--;
    if (me->leading > me->depth) me->leading = me->depth;
    note_top(me);
}

/* Stacks grow down: a function's frames lie below those of who called it. */
void aero_left(uintptr_t frame) {
    struct thread *me = &aero_me;
    while (me->depth && me->frames[me->depth - 1].at < frame) pop(0);
}

/* How many frames a signal handler that goes on has found: they are those of what it has interrupted, and its own stack may lie
 * anywhere. One that doesn't go on was left, with its frames. */
static size_t found_by_handler(struct thread *me, uintptr_t frame) {
    size_t found = me->handler ? me->handler - 1 : 0;
    if (!me->handler || (is_own(me, me->handler_at) && frame <= me->handler_at)) return found;
    while (me->depth > found) pop(0);
    me->handler = 0;
    return 0;
}
static void leave_what_ended(struct thread *me, uintptr_t frame) {
    if (!is_own(me, frame)) {
        if (me->jumped) aero_left(frame);
        return;
    }
    size_t kept = found_by_handler(me, frame);
    while (me->depth > kept && me->frames[me->depth - 1].at < frame && is_own(me, me->frames[me->depth - 1].at)) pop(0);
}
void aero_may_have_left(uintptr_t frame) {
    if (!aero_me.depth || !aero_enter()) return;
    leave_what_ended(&aero_me, frame);
    aero_leave();
}

/* Where the frame of the function begins that has called this one: as the wrapper has it, it has a frame pointer. */
#ifdef __x86_64__
#define CALLERS_FRAME (*(const uintptr_t *)__builtin_frame_address(0) + 2 * sizeof(uintptr_t))
#else
#define CALLERS_FRAME 0
#endif
/* A function was entered that returns to `caller`, and whose frame lies from `low` up to `high`, if it has a frame pointer. The frames of
 * functions that go on lie above. */
static void enter_from(struct thread *me, uintptr_t low, uintptr_t high, uintptr_t caller) {
    bool is_frame = low < high && high <= me->high && is_own(me, low) && ((const uintptr_t *)high)[-1] == caller;
    leave_what_ended(me, is_frame ? high : low + 1);
}
/* The function is left, whose frame ends at `low`. Above lies that of its caller. */
static void renew_frame(uintptr_t low, uintptr_t high) {
    const struct thread *me = &aero_me;
    uintptr_t most = me->depth ? me->frames[me->depth - 1].at : UINTPTR_MAX;
    if (low <= high && high <= most) aero_renew_below(high);
}

bool aero_has_entered;

/* What no hooked function has called, as main or what a thread starts with, has its own place. */
EXPORT void __tsan_func_entry(void *caller) {
    aero_may_be_cancelled();
    if (!aero_enter()) return;
    if (UNLIKELY(CALLERS_FRAME > aero_me.top || FRAME >= aero_me.top)) enter_from(&aero_me, FRAME, CALLERS_FRAME, (uintptr_t)caller);
    if (UNLIKELY(!aero_has_entered)) aero_has_entered = true;
    push(aero_function(CALL), FRAME, aero_me.depth ? (uintptr_t)caller : CALL);
    bool begins = UNLIKELY(aero_stirs) && aero_me.depth && aero_me.frames[aero_me.depth - 1].block == OPEN;
    aero_leave();
    if (UNLIKELY(begins)) aero_may_stir();
}
EXPORT void __tsan_func_exit(void) {
    aero_come_from(FRAME);
    if (!aero_enter()) return;
    if (aero_me.depth) pop(CALL);
    if (aero_is_noted(aero_me.stack)) renew_frame(FRAME, CALLERS_FRAME);
    aero_leave();
}

void aero_end_blocks(void) {
    struct thread *me = &aero_me;
    for (; me->depth; me->depth--) {
        struct frame *top = &me->frames[me->depth - 1];
        int block = top->block;
        top->block = CLOSED;
        if (block == OPEN) aero_line("end", NULL, 0, NULL, 0);
    }
    me->leading = 0;
    me->outside = 0;
    note_top(me);
}

void aero_forget_blocks(void) {
    for (size_t place = 0; place < aero_me.depth; place++) aero_me.frames[place].block = CLOSED;
}

/* ---- blocks that are split */

static void end_here(struct thread *me, int as) {
    for (size_t place = me->depth; place > 0; place--) {
        struct frame *it = &me->frames[place - 1];
        if (it->block != OPEN) continue;
        it->block = as;
        aero_line("end", NULL, 0, NULL, it->call);
    }
}
static void begin_again(struct thread *me) {
    for (size_t place = 0; place < me->depth; place++) {
        struct frame *it = &me->frames[place];
        if (it->block != SPLIT) continue;
        aero_line("begin", "", 0, it->function->label, it->call);
        it->block = OPEN;
    }
}
void aero_split_blocks(bool begins) {
    if (!aero_settings.splits_waits) return;
    aero_lock();
    if (begins) begin_again(&aero_me);
    else end_here(&aero_me, SPLIT);
    aero_unlock();
}
bool aero_looks_for_condition(void) {
    for (size_t place = aero_me.depth; place > 0; place--) {
        const struct code *function = aero_me.frames[place - 1].function;
        int kind = function ? atomic_load_explicit(&function->kind, memory_order_relaxed) : 0;
        if (!(kind & IS_RUNTIME) || kind & OF_PROGRAM) return false;
        if (kind & OF_CONDITION) return true;
    }
    return false;
}
void aero_split_at_thread(void) {
    if (aero_settings.splits_threads) end_here(&aero_me, CLOSED);
}

/* ---- longjmp */

/* Where the stack ends that a jump goes back to; 0: it isn't known. The C library has it in the buffer, turned by 17 bits and
 * mixed with a number that each process has. */
static uintptr_t stack_of(const struct __jmp_buf_tag *to) {
#ifdef __x86_64__
    uintptr_t kept = (uintptr_t)to->__jmpbuf[6], secret;
    __asm__("mov %%fs:0x30, %0" : "=r"(secret));
    return (kept >> 17 | kept << 47) ^ secret;
#else
    (void)to;
    return 0;
#endif
}

/* A signal handler may have a stack of its own: the function that a jump goes back to is the one that lies next above. */
static void leave_until(uintptr_t stack) {
    struct thread *me = &aero_me;
    uintptr_t next = UINTPTR_MAX;
    size_t kept = 0;
    for (size_t place = 0; place < me->depth; place++) {
        uintptr_t at = me->frames[place].at;
        if (at < stack || at > next) continue;
        next = at;
        kept = place + 1;
    }
    while (me->depth > kept) pop(0);
    if (aero_is_noted(me->stack)) aero_renew_below(stack);
}

static void jumps_to(const struct __jmp_buf_tag *to) {
    uintptr_t stack = stack_of(to);
    aero_me.aborts = 0;
    aero_me.handler = 0;
    if (aero_me.busy) aero_interrupted();
    if (!stack) aero_me.jumped = true;
    if (!stack || !aero_enter()) return;
    leave_until(stack);
    aero_leave();
}

#define JUMP(name, buffer) \
    EXPORT void name(buffer to, int value) { \
        REAL(void, name, buffer, int) \
        jumps_to(to); \
        real(to, value); \
        __builtin_unreachable(); \
    }
#undef longjmp
#undef siglongjmp
#undef _longjmp
void __longjmp_chk(jmp_buf, int);
JUMP(longjmp, jmp_buf)
JUMP(_longjmp, jmp_buf)
JUMP(siglongjmp, sigjmp_buf)
JUMP(__longjmp_chk, jmp_buf)

/* ---- contexts */

/* Where the stack ends that the context goes on with; 0: it isn't known. */
static uintptr_t stack_of_context(const ucontext_t *to) {
#ifdef __x86_64__
    return (uintptr_t)to->uc_mcontext.gregs[REG_RSP];
#else
    (void)to;
    return 0;
#endif
}

/* Back to a function that has called this one it is a jump. Else blocks would be those of several stacks. */
static void goes_to(const ucontext_t *to, uintptr_t frame, bool returns) {
    uintptr_t stack = stack_of_context(to);
    aero_me.aborts = 0;
    if (aero_me.busy) aero_interrupted();
    if (!aero_enter()) return;
    if (!returns && is_own(&aero_me, stack) && (!is_own(&aero_me, frame) || stack >= frame)) {
        aero_me.handler = 0;
        leave_until(stack);
    } else {
        aero_lock();
        aero_stop(CUT_FIBER, "the program switches to another stack (setcontext, swapcontext)");
        aero_unlock();
    }
    aero_leave();
}
EXPORT int setcontext(const ucontext_t *to) {
    REAL(int, setcontext, const ucontext_t *)
    goes_to(to, FRAME, false);
    return real(to);
}
EXPORT int swapcontext(ucontext_t *from, const ucontext_t *to) {
    REAL(int, swapcontext, ucontext_t *, const ucontext_t *)
    goes_to(to, FRAME, true);
    return real(from, to);
}
