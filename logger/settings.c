/* What the environment of the program says:
 *
 *   AERODROME_LOG      a path, or `|COMMAND`, which sh runs with the log as its standard input. %p is the process's number.
 *                      Without it nothing is logged
 *   AERODROME_BLOCKS   which functions are blocks; choice.c says how
 *   AERODROME_SPLIT    waits: a block ends where it waits on a condition variable, and another one begins behind that.
 *                      threads: a block ends where it starts or joins a thread, and none begins behind that
 *   AERODROME_STIR     a number, from which follows where threads let others run (stir.c)
 *   AERODROME_GRAIN    bytes of one variable: 1, 2, 4, 8; without it they are as they are accessed (parts.c)
 *   AERODROME_FRESH    0: memory that is allocated again has the old names (1)
 *   AERODROME_PLACES   0: no places in the code (1)
 *   AERODROME_LIMIT    at most so many bytes are written, 100 or more, 0: any number (1G; for a pipe 0). K, M and G are
 *                      2^10, 2^20 and 2^30
 *
 * One that can't be used is told of in a line, and nothing is logged. */
#include "log.h"
#include "words.h"

#include <stdio.h>
#include <stdlib.h>
#include <string.h>

struct settings aero_settings;

/* Reads the words, of which one is enough. */
static bool is_split(const char *text) {
    static const char *const both[] = {"waits,threads", "threads,waits"};
    bool is_both = !strcmp(text, both[0]) || !strcmp(text, both[1]);
    aero_settings.splits_waits = is_both || !strcmp(text, "waits");
    aero_settings.splits_threads = is_both || !strcmp(text, "threads");
    return aero_settings.splits_waits || aero_settings.splits_threads;
}

/* A program may write over its environment, as one does that shows what it is doing in the list of processes. */
static const char *kept(const char *text) {
    char *copy = text ? aero_pages(strlen(text) + 1) : NULL;
    return copy ? strcpy(copy, text) : text;
}

bool aero_read_settings(const char *target) {
    struct settings *it = &aero_settings;
    *it = (struct settings){.target = kept(target), .fresh = 1, .places = 1, .stir = -1, .limit = -1};
    it->blocks = kept(text_of("AERODROME_BLOCKS"));
    const char *split = text_of("AERODROME_SPLIT"), *limit = text_of("AERODROME_LIMIT"),
               *stir = text_of("AERODROME_STIR");
    if (!strcmp(target, "|")) return refuses("AERODROME_LOG", target, "a command behind |");
    if (!aero_target_fits(target)) return refuses("AERODROME_LOG", target, "a path or a command of at most 4,095 bytes");
    if (!is_one_of("AERODROME_GRAIN", 1 << 1 | 1 << 2 | 1 << 4 | 1 << 8, "1, 2, 4 or 8", &it->grain)) return false;
    if (!is_one_of("AERODROME_FRESH", 1 << 0 | 1 << 1, "0 or 1", &it->fresh)) return false;
    if (!is_one_of("AERODROME_PLACES", 1 << 0 | 1 << 1, "0 or 1", &it->places)) return false;
    if (split && !is_split(split)) return refuses("AERODROME_SPLIT", split, "waits, threads or waits,threads");
    if (stir && (it->stir = number_in(stir)) < 0) return refuses("AERODROME_STIR", stir, "a number");
    if (limit && (it->limit = number_in(limit)) < 0)
        return refuses("AERODROME_LIMIT", limit, "a number of bytes, as 4096, 500K, 20M or 1G,");
    if (it->limit > 0 && it->limit < 100) return refuses("AERODROME_LIMIT", limit, "0 or at least 100");
    return true;
}
