/* Stacks: what lies in the frame of a function that has returned is new variables, if another thread has accessed it.
 *
 * Two frames of one thread, one after the other, have their variables at one address. Nobody but the thread itself takes them for one
 * variable, unless another thread accesses what lies there, as a waiter that is woken up. So pages of stacks are marked, an access to one
 * by another thread is noted with the owner of the stack, and the owner renews the bytes when it returns from the function. */
#include "log.h"

#include <dlfcn.h>

static struct stack *stacks, *recent;       /* the log's lock is held where they change, or are looked at */

static struct stack *new_stack(void) {
    static struct stack *room;
    static size_t left;
    enum { CHUNK = 1 << 16 };
    if (!left) {
        room = aero_pages(CHUNK);
        left = room ? CHUNK / sizeof *room : 0;
        if (!left) return NULL;
    }
    left--;
    room->next = stacks;
    stacks = room;
    return room++;
}

/* What another stack has there is gone. */
static void note_stack(uintptr_t low, uintptr_t high) {
    struct stack *ours = NULL;
    for (struct stack *it = stacks; it; it = it->next) {
        if (it->low < high && low < it->high) it->low = it->high = 0;
        if (it->low == it->high) ours = it;
    }
    if (!ours) ours = new_stack();
    if (!ours) return;
    ours->low = low;
    ours->high = high;
    ours->noted = ours->noted_end = 0;
    aero_me.stack = ours;
    aero_mark_stack(low, high);
}
void aero_note_stack(uintptr_t low, uintptr_t high) {
    aero_me.low = low;
    aero_me.high = high;
    aero_renew(low, high);
    if (!aero_settings.fresh) return;
    aero_lock();
    note_stack(low, high);
    aero_unlock();
}

/* The first thread's stack grows up to a limit, which says nothing of its size. */
void aero_stacks_start(void) {
    enum { MOST = 1 << 23, PAGE = 1 << 12 };
    void *const *end = dlsym(RTLD_DEFAULT, "__libc_stack_end");
    if (!end) return;
    uintptr_t high = ((uintptr_t)*end | (PAGE - 1)) + 1;
    aero_note_stack(high - MOST, high);
}

void aero_forget_stack(void) {
    aero_lock();
    if (aero_me.stack) aero_me.stack->low = aero_me.stack->high = 0;
    aero_me.stack = NULL;
    aero_unlock();
}

static bool has(const struct stack *stack, uintptr_t address) { return stack && address - stack->low < stack->high - stack->low; }

/* An access to a page of a stack; the log's lock is held. Returns whether the page still is one. */
bool aero_note_access(uintptr_t address) {
    if (has(aero_me.stack, address)) return true;
    if (!has(recent, address)) {
        struct stack *it = stacks;
        while (it && !has(it, address)) it = it->next;
        if (!it) return false;
        recent = it;
    }
    if (!recent->noted || address < recent->noted) recent->noted = address;
    if (address + 8 > recent->noted_end) recent->noted_end = address + 8;
    return true;
}

/* The thread has left all functions whose frames lie below the address. */
void aero_renew_below(uintptr_t end) {
    struct stack *stack = aero_me.stack;
    if (!has(stack, end)) return;
    aero_lock();
    uintptr_t from = stack->noted;
    if (from && from < end) {
        aero_renew(from & -(uintptr_t)16, end);
        stack->noted = end < stack->noted_end ? end : 0;
        if (!stack->noted) stack->noted_end = 0;
    }
    aero_unlock();
}
