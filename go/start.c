/* The start, which the runtime calls before main and before any other hook, and the end: of main and of os.Exit(0) by the race
 * detector's own hook, else by the runtime's exit and dieFromSignal, which aerodrome-go has call it too, or by exit of C, where a
 * program of C has a library of Go (c-archive, c-shared). */
#include "log.h"

#include <stdio.h>
#include <stdlib.h>
#include <unistd.h>

/* atexit and pthread_atfork, which aren't in the shared C library themselves */
int __cxa_atexit(void (*function)(void *), void *argument, void *library);
int __register_atfork(void (*before)(void), void (*parent)(void), void (*child)(void), void *library);

static bool is_open;
static pid_t owner;          /* a child that C code forks ends no log */

static void finish(bool waits);
static void finish_by_exit(void *nothing) {
    (void)nothing;
    if (is_open && getpid() == owner && aero_lock_soon()) finish(true);
}
static void forget(void) {
    aero_is_on = 0;
    is_open = false;
}

static void start(void (*callback)(word, void *), const struct here *here) {
    const char *said = secure_getenv("AERODROME_LOG");
    if (!said || !*said || !aero_read_settings(said)) return;
    aero_symbols_start();
    if (!aero_read_blocks(aero_settings.blocks) || !aero_knows_blocks()) return;
    if (!aero_objects_start()) {
        aero_say(said, "there is no room of addresses for its tables (ulimit -v): nothing is logged");
        return;
    }
    if (!aero_open(said)) return;
    aero_code_start(callback, here->g);
    __cxa_atexit(finish_by_exit, NULL, NULL);
    __register_atfork(NULL, NULL, forget, NULL);
    owner = getpid();
    is_open = true;
    aero_is_on = 1;
}

__asm__(".text\n.globl __tsan_init\n.type __tsan_init, @function\n__tsan_init:\npush %rbp\npush %r14\npush %r12\nmov %rsp, %r8\n"
        "call aero_init\nadd $24, %rsp\nret\n.size __tsan_init, .-__tsan_init\n");
void aero_init(struct goroutine **made, void **processor, void (*callback)(word, void *), word unused, const struct here *here) {
    (void)unused;
    *made = aero_goroutine();
    *processor = NULL;
    start(callback, here);
}

/* A log without a line, or without blocks, would be taken for one without a violation. */
static void tell_of_little(void) {
    if (!aero_has_lines()) {
        aero_remove();
        aero_say("nothing is logged", "the program did nothing that is logged");
    } else if (!aero_has_blocks && aero_wants_blocks()) aero_say("no block is logged", "no function that is a block did anything");
}

/* The command is waited for where the log has ended early, too; why it has is told already. */
static void finish(bool waits) {
    bool is_whole = aero_is_on;
    if (!is_open) return;
    aero_is_on = 0;
    is_open = false;
    const char *why = is_whole ? aero_end(NULL) : NULL;
    if (is_whole) tell_of_little();
    const char *why_closed = waits ? aero_close() : NULL;
    if (!why && is_whole) why = why_closed;
    char text[256];
    snprintf(text, sizeof text, "%.200s: the rest isn't logged", why ? why : "");
    if (why) aero_say(aero_settings.target, text);
}

/* How the program ends: main has returned, or the runtime's exit is called, or a signal ends it, which is to be soon. A signal may have
 * come into a hook: then its thread has the lock, and the log isn't ended. */
EXPORT void __tsan_fini(word status, word how) {
    enum { RETURN, EXIT, SIGNAL };
    (void)status;
    if (how == RETURN) aero_lock();
    else if (!aero_lock_soon()) return;
    finish(how != SIGNAL);
    if (how == RETURN) exit(0);
}
