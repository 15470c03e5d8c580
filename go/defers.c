/* How functions end: by their last instructions, and by the functions that they have deferred. */
#include "log.h"

/* The head of runtime._defer: what a function has deferred, and the stack pointer that it had then. */
struct defer {
    word flags, stack;
};
static const struct defer *latest_defer(const struct here *here) {
    return aero_defers_of_g ? (const struct defer *)here->g[aero_defers_of_g / 8] : NULL;
}

/* ---- code that only ends its function */

/* Whether the code at the address does nothing but end its function. What isn't in a function of Go isn't looked at: it may be no
 * address, where a function in assembly has kept no frame. */
bool aero_only_ends(struct code *from) {
    if (from->ends == UNSEEN) from->ends = !(from->is & IS_UNKNOWN) && aero_leads_to_end(from->at, true) ? ONLY_ENDS : GOES_ON;
    return from->ends == ONLY_ENDS;
}

/* ---- deferred functions */

/* Whether the function with that stack pointer has deferred more. Where that isn't known, it may have. */
static bool has_deferred(const struct here *here, word stack) {
    const struct defer *next = latest_defer(here);
    return aero_defers_of_g ? next && next->stack == stack : true;
}

/* The stack pointer of the function that has deferred what a panic calls, if that has recovered from the only panic, and the function has
 * deferred nothing else, so that it only ends; or 0. */
static word recovered(const struct here *here) {
    const struct defer *of = latest_defer(here);
    const char *panic = of && aero_recovered_of_panic ? (const char *)here->g[aero_panics_of_g / 8] : NULL;
    if (!panic || !panic[aero_recovered_of_panic] || *(const word *)(panic + aero_link_of_panic)) return 0;
    const struct defer *next = *(const struct defer *const *)((const char *)of + aero_link_of_defer);
    return next && next->stack == of->stack ? 0 : of->stack;
}

/* Whether the function whose code is at the address has more to do. What sync and the runtime do behind a release has no events, but for
 * Cond.Wait. */
static bool goes_on(const struct here *here, struct code *code, word its_caller) {
    if ((code->is & RETURNS_BY_DEFERRED) && has_deferred(here, its_caller)) return true;
    return code->is & IS_LOW ? (code->is & (PANICS | IS_COND_WAIT)) != 0 : !aero_only_ends(code);
}

/* Whether all that is left to do, up to the end of the function with that stack pointer, is to end. What a panic has left is dead, up to
 * the function that has recovered. */
bool aero_only_ends_follow(const struct here *here, word stack) {
    const word *frame = here->frame;
    word low = here->stack, recovers = 0;
    for (int level = 0; level < 16 && aero_is_frame(here, frame, low); level++) {
        struct code *code = aero_code(frame[1]);
        word caller = (word)(frame + 2);
        if (code->is & PANICS) recovers = recovered(here);
        if (caller > recovers && goes_on(here, code, frame[0] + 16)) return false;
        if (caller >= stack) return caller == stack;
        low = (word)frame;
        frame = (const word *)frame[0];
    }
    return false;
}

/* A panic or Goexit calls a function that is deferred. The function that has deferred it goes on, and those that this one has called
 * have ended, though they lie on the stack until the panic is recovered. Where it isn't known which function that is, blocks end. */
void aero_leave_by_panic(struct goroutine *t, const struct here *here) {
    const struct defer *of = latest_defer(here);
    if (of) aero_drop_dead(t, here, of->stack);
    else aero_split(t, false);
}
