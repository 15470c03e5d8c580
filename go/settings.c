/* What the environment of the program says:
 *
 *   AERODROME_LOG        a path, or `|COMMAND`, which sh runs with the log as its standard input. %p is the process's number.
 *                        Without it nothing is logged
 *   AERODROME_BLOCKS     which functions are blocks; choice.c says how
 *   AERODROME_SPLIT      waits: a block ends where its goroutine waits for others, and another one begins behind that (the default:
 *                        a block that starts a goroutine and waits for it is a cycle by definition). threads: a block ends where it
 *                        starts a goroutine, and none begins behind that. waits,threads: both. none: neither
 *   AERODROME_LOCAL      skip: what is allocated isn't logged until a second goroutine touches it (all)
 *   AERODROME_GRAIN      bytes of one variable: 1, 2, 4, 8; without it they are as they are accessed (access.c)
 *   AERODROME_CHANNELS   both: an unbuffered channel orders the sender behind the receiver too (one: it doesn't)
 *   AERODROME_PLACES     0: no places in the code (1)
 *   AERODROME_LIMIT      at most so many bytes are written, 0: any number (1G; for a pipe 0). K, M and G are 2^10, 2^20 and 2^30
 *
 * One that can't be used is told of in a line, and nothing is logged. */
#include "log.h"
#include "../logger/words.h"

#include <stdio.h>
#include <stdlib.h>

struct settings aero_settings;

/* Sets whether the variable says the first word, not the second one, and says whether it is one of both. */
static bool is_word(const char *variable, const char *on, const char *off, bool *is_on) {
    char wanted[64];
    const char *text = text_of(variable);
    if (!text) return true;
    *is_on = !strcmp(text, on);
    snprintf(wanted, sizeof wanted, "%s or %s", on, off);
    return *is_on || !strcmp(text, off) || refuses(variable, text, wanted);
}

static bool is_split(const char *text) {
    bool is_both = !strcmp(text, "waits,threads") || !strcmp(text, "threads,waits");
    aero_settings.splits_waits = is_both || !strcmp(text, "waits");
    aero_settings.splits_threads = is_both || !strcmp(text, "threads");
    return aero_settings.splits_waits || aero_settings.splits_threads || !strcmp(text, "none");
}

bool aero_read_settings(const char *target) {
    struct settings *it = &aero_settings;
    *it = (struct settings){.target = target, .places = 1, .splits_waits = true, .limit = -1};
    it->blocks = text_of("AERODROME_BLOCKS");
    const char *split = text_of("AERODROME_SPLIT"), *limit = text_of("AERODROME_LIMIT");
    if (!strcmp(target, "|")) return refuses("AERODROME_LOG", target, "a command behind |");
    if (!is_one_of("AERODROME_GRAIN", 1 << 1 | 1 << 2 | 1 << 4 | 1 << 8, "1, 2, 4 or 8", &it->grain)) return false;
    if (!is_one_of("AERODROME_PLACES", 1 << 0 | 1 << 1, "0 or 1", &it->places)) return false;
    if (!is_word("AERODROME_LOCAL", "skip", "all", &it->skips_local)) return false;
    if (!is_word("AERODROME_CHANNELS", "both", "one", &it->both_ways)) return false;
    if (split && !is_split(split)) return refuses("AERODROME_SPLIT", split, "waits, threads, waits,threads or none");
    if (limit && (it->limit = number_in(limit)) < 0)
        return refuses("AERODROME_LIMIT", limit, "a number of bytes, as 4096, 500K, 20M or 1G,");
    return true;
}
