/* The start: before main, and before what the program does ahead of it. */
#include "log.h"

#include <stdlib.h>

/* Whether the C library calls the logger where a thread ends, at fork and by quick_exit; else it says that it doesn't. */
static bool is_called(void) {
    if (aero_threads_start() && aero_processes_start() && !at_quick_exit(aero_finish)) return true;
    aero_say("AERODROME_LOG", "the C library refuses to call the logger at fork and where threads and the program end: nothing is logged");
    return false;
}

void aero_start(void) {
    static atomic_int started;
    if (atomic_exchange(&started, 1)) return;
    const char *said = secure_getenv("AERODROME_LOG");
    if (!said && getenv("AERODROME_LOG"))
        aero_say("AERODROME_LOG", "the program has other rights than who has started it: nothing is logged");
    if (!said || !*said || !aero_read_settings(said)) return;
    aero_number(aero_next_number());
    aero_grain = aero_settings.grain;
    aero_memory_start();
    aero_stir_start();
    if (!aero_read_blocks(aero_settings.blocks)) return;
    aero_names_start();
    if (!aero_knows_blocks()) return;
    const char *target = aero_target(said);
    if (!is_called() || !aero_open(target)) return;
    aero_write_to(target);
    aero_ends_start();
    aero_signals_start();
    atomic_store(&aero_state, ON);
    aero_stacks_start();
}
__attribute__((constructor(101))) static void early(void) {
    aero_find_next();
    aero_start();
}
/* Each file of code that has hooks calls it at its start, also where dlopen loads it. */
EXPORT void __tsan_init(void) {
    aero_start();
    if (!aero_enter()) return;
    aero_library_loaded(HERE);
    aero_leave();
}
