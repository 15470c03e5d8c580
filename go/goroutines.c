/* Goroutines, the functions that they are in, and blocks. A hook of a function's exit isn't called where a panic or Goexit leaves
 * the function. But then its frame lies deeper than the stack goes, and the next hook sees that. */
#include "log.h"

#include <stdio.h>
#include <stdlib.h>

bool aero_has_blocks;
static struct numbers threads;
static uint64_t last_id;
enum { MOST_THREADS = 65535 };       /* that the checker takes, less the one of the mark of a log that was cut */

struct goroutine *aero_goroutine(void) {
    struct goroutine *made = aero_new(sizeof *made);
    made->id = ++last_id;
    return made;
}

/* Says whether the number was another one's before: a thread can't be forked twice. */
static bool take_number(struct goroutine *t) {
    bool is_used_again;
    t->number = aero_take_number(&threads, &is_used_again);
    if (t->number > MOST_THREADS) aero_stop("threads", "more than 65535 goroutines at once, or none of their ends at a quiet moment");
    t->length = (uint32_t)snprintf(t->prefix, sizeof t->prefix, "T%u|", t->number);
    return is_used_again;
}

static void give_back(struct goroutine *t) {
    if (t->number) aero_give_back(&threads, t->number);
    t->number = 0;
}

/* ---- blocks */

static void open_block(struct goroutine *t, struct frame *it) {
    it->block = OPEN;
    aero_has_blocks = true;
    if (!t->open++) aero_open_blocks++;
    aero_line(t, "begin", it->function->label->text, it->function);
}

static void close_block(struct goroutine *t) {
    aero_line(t, "end", NULL, NULL);
    if (!--t->open && !--aero_open_blocks) aero_last_calm = aero_now;
}

/* Whether the function does nothing but call Done, Lock or Unlock, as `func() { both.Done() }`, perhaps by wrappers. It is no block,
 * because it would have that one event only, and the program often ends before it does. */
static bool only_defers(const struct goroutine *t, size_t depth) {
    if (aero_starts_are_blocks()) return false;
    do {
        if (++depth >= t->depth || !aero_only_ends(t->frames[depth].call)) return false;
    } while (t->frames[depth].function->is & IS_WRAPPER);
    enum asker asker = t->frames[depth].function->asker;
    return asker == WAIT_GROUP || asker == MUTEX || asker == READER || asker == WRITER;
}

/* Before an event: so a block without events has no line. */
void aero_begin_blocks(struct goroutine *t) {
    if (UNLIKELY(!t->number)) take_number(t);
    for (; t->begun < t->depth; t->begun++)
        if (t->frames[t->begun].block == WAITING && !only_defers(t, t->begun)) open_block(t, &t->frames[t->begun]);
}

/* The frames from there on are left. */
void aero_leave(struct goroutine *t, size_t depth) {
    while (t->depth > depth)
        if (t->frames[--t->depth].block == OPEN) close_block(t);
    if (t->begun > t->depth) t->begun = t->depth;
}

/* All blocks end, and where they begin again the functions' next events are in new ones. */
void aero_split(struct goroutine *t, bool begins_again) {
    for (size_t depth = t->depth; depth-- > 0;) {
        struct frame *it = &t->frames[depth];
        if (it->block == OPEN) close_block(t);
        if (it->block != NO_BLOCK) it->block = begins_again ? WAITING : NO_BLOCK;
    }
    t->begun = 0;
}

void aero_drop_dead(struct goroutine *t, const struct here *here, word stack) {
    word depth = here->g[1] - stack;
    size_t live = t->depth;
    if (t->g != here->g) return;
    while (live && t->frames[live - 1].depth > depth) live--;
    if (live < t->depth) aero_leave(t, live);
}

/* Blocks end with a release if they have nothing else to do: else they would be open if another goroutine, which has waited for the
 * release, ends the program meanwhile. */
void aero_end_early(struct goroutine *t, const struct here *here) {
    size_t outer = 0;
    if (!t->open || t->g != here->g) return;
    while (t->frames[outer].block != OPEN) outer++;
    if (aero_only_ends_follow(here, here->g[1] - t->frames[outer].depth)) aero_split(t, false);
}

void aero_end_parked(struct goroutine *t) {
    const word *sched = &t->g[aero_sched_of_g / 8];
    const struct here there = {sched[0], t->g, (const word *)sched[aero_frame_of_sched / 8]};
    if (aero_sched_of_g && aero_frame_of_sched) aero_end_early(t, &there);
}

/* ---- functions */

/* The stack pointer of the function that a hook is of, and where the function goes on. runtime.racefuncenter is called by a wrapper
 * of its name, which has a frame; that of racefuncexit has none (Go 1.17 to 1.19: wrappers between the two ABIs). */
static word caller(const struct here *here, bool enters, word *goes_on) {
    word stack = here->stack + (enters ? 8 : 0);
    *goes_on = *(word *)stack;
    if (!(aero_code(*goes_on)->is & IS_HOOK)) return stack + 8;
    if (enters) stack = (word)here->frame;
    *goes_on = ((word *)stack)[1];
    return stack + 16;
}

static bool is_one_line(const struct code *one, const struct code *other) {
    return one->line == other->line && !strcmp(one->place, other->place);
}

/* Whether the compiler made the function for a defer statement of the other one, in which it is a literal. */
static bool is_deferred_by(const struct code *function, const struct code *other) {
    const struct label *of = other->label;
    return (function->is & IS_WRAPPER) && !strncmp(function->label->text, of->text, of->length) && function->label->text[of->length] == '.';
}

/* What a goroutine starts with is no block. Besides its first function that is
 *   - f that a wrapper calls, as that of `go f(x)`, or of a method value x.f
 *   - f of `go func() { f(x) }()` in one line, which does nothing behind the call. The call is in that line too, or f is a literal that
 *     begins there
 *   - a literal or a method value that a function of another package starts with, as that of errgroup's Go does. */
static bool is_start(const struct goroutine *t, const struct code *function, struct code *call) {
    if (!t->depth) return true;
    const struct frame *before = &t->frames[t->depth - 1];
    const struct code *first = before->function;
    if (!before->is_start) return false;
    if (first->is & IS_WRAPPER) return call->label == first->label;
    if (t->depth > 1 || is_deferred_by(function, first)) return false;
    if (aero_is_given_to(first->label, function->label)) return true;
    bool is_in_line = t->go && is_one_line(t->go, first) && (is_one_line(t->go, call) || is_one_line(t->go, function));
    return is_in_line && !(call->is & IS_UNKNOWN) && aero_leads_to_end(call->at, false);
}

void aero_enter(const struct here *here, struct goroutine *t, word call_ends) {
    word goes_on, stack = caller(here, 1, &goes_on);
    t->g = here->g;
    aero_drop_dead(t, here, stack + 1);
    struct code *function = aero_code(goes_on), *call = aero_code(call_ends);
    if (call->is & PANICS) aero_leave_by_panic(t, here);
    if (t->depth == t->room) t->frames = aero_more(t->frames, sizeof *t->frames, &t->room);
    bool starts = is_start(t, function, call), is_block = (function->is & IS_BLOCK) && (aero_starts_are_blocks() || !starts);
    bool is_quiet = call->asker == ONCE && t->is_own_once;
    t->frames[t->depth++] = (struct frame){here->g[1] - stack, function, call, is_block ? WAITING : NO_BLOCK, starts, is_quiet};
    /* Ends the blocks for good, because os.Exit doesn't return. (In a test os.Exit(0) panics instead, and the blocks end there too.) */
    if (function->is & ENDS_PROGRAM) aero_split(t, false);
}

void aero_exit(const struct here *here, struct goroutine *t) {
    word goes_on, stack = caller(here, 0, &goes_on);
    aero_drop_dead(t, here, stack);
    if (t->depth && t->frames[t->depth - 1].depth == here->g[1] - stack) aero_leave(t, t->depth - 1);
}

/* ---- starts and ends */

static void fork_line(struct goroutine *by, struct goroutine *t, bool is_used_again) {
    char name[32];
    snprintf(name, sizeof name, is_used_again ? "go.T%u" : "T%u", t->number);
    aero_line(by, is_used_again ? "w" : "fork", name, t->go);
    if (is_used_again) aero_line(t, "r", name, t->go);
}

/* The runtime's own goroutines are not started by who needs them first. Those that run timers are one for each processor. */
void aero_started(struct goroutine *parent, struct goroutine *t, word at) {
    t->go = aero_code(at);
    t->is_timer = (t->go->is & RUNS_TIMERS) != 0;
    if ((t->go->is & IS_RUNTIME) || !parent) return;
    aero_begin_blocks(parent);
    fork_line(parent, t, take_number(t));
    if (aero_settings.splits_threads) aero_split(parent, false);
}

void aero_ended(struct goroutine *t) {
    aero_leave(t, 0);
    give_back(t);
    free(t->frames);
    free(t);
}

/* Each timer that goes off is a thread of its own: else they would be ordered by the processor that runs them. */
void aero_end_of_timer(struct goroutine *t) {
    if (!t->is_timer) return;
    aero_leave(t, 0);
    give_back(t);
}
