/* Which bytes are one variable. By AERODROME_GRAIN so many. Without it the accesses say it: of each eight bytes,
 *
 *   those that are accessed first      become a variable, and leave their neighbours alone
 *   an access to several variables     counts for each of them
 *   a write of a part of a variable    counts for the whole, and from then on the part is a variable of its own
 *   a read of a part                   counts for the whole, which stays one
 *
 * So of two accesses that share a byte both share a variable, or one between them shares one with either: no order is lost. Of two
 * that share none, both share a variable only where a part was read, or first written, of what was accessed as a whole before.
 *
 * A copy, as by memcpy, says nothing of the sizes within it, only where it begins and ends: what it is the first to access becomes
 * variables of four bytes, or of fewer at its ends, and what it writes of a variable is set apart. As long as eight bytes were copied
 * only, and all at a time, an access to all makes them one: its name is that of the first four, which each copy has logged. Parts never
 * become one again, unless they are allocated again: then they begin anew. */
#include "log.h"

/* A bit for each byte that begins a variable, but for the first one, which always does; and for each that was accessed. */
enum { COPIED_ONLY = 1, STARTS = 0xfe, TOUCHED = 8, HALVES = 1 << 4, ALL_TOUCHED = 0xff << TOUCHED };

static bool is_touched(unsigned parts, unsigned byte) { return parts >> TOUCHED >> byte & 1; }
static unsigned start_of(unsigned parts, unsigned byte) {
    while (byte && !(parts >> byte & 1)) byte--;
    return byte;
}
static unsigned end_of(unsigned parts, unsigned byte) {
    for (byte++; byte < 8 && !(parts >> byte & 1);) byte++;
    return byte;
}

static unsigned set_apart(unsigned parts, unsigned from, unsigned to) {
    return parts | (1u << from & STARTS) | (1u << to & STARTS);
}

/* What is untouched of the bytes becomes a variable, or one on each side of those that aren't. */
static unsigned claim(unsigned parts, unsigned from, unsigned to) {
    for (unsigned byte = from, stop; byte < to; byte = stop) {
        for (stop = byte + 1; stop < to && !is_touched(parts, byte) && !is_touched(parts, stop);) stop++;
        if (is_touched(parts, byte)) continue;
        parts = set_apart(parts, byte, stop) | ((1u << stop) - (1u << byte)) << TOUCHED;
    }
    return parts;
}

/* The variables behind a copy: what it is the first to access of each four bytes, and no byte more. */
static unsigned copied(unsigned parts, unsigned from, unsigned to) {
    bool is_whole = from == 0 && to == 8;
    if (is_whole && !parts) return ALL_TOUCHED | HALVES | COPIED_ONLY;
    if (is_whole && parts & COPIED_ONLY) return parts;
    parts &= ~(unsigned)COPIED_ONLY;
    if ((parts & ALL_TOUCHED) == ALL_TOUCHED) return parts;
    if (from < 4) parts = claim(parts, from, to < 4 ? to : 4);
    return to > 4 ? claim(parts, from > 4 ? from : 4, to) : parts;
}

static unsigned accessed(unsigned parts, unsigned from, unsigned to) {
    if (parts & COPIED_ONLY && from == 0 && to == 8) return ALL_TOUCHED;
    return claim(parts & ~(unsigned)COPIED_ONLY, from, to);
}

/* Whether the bytes are one variable that was accessed before, other than as a half of a copy. */
static bool is_one(unsigned parts, unsigned from, unsigned to) {
    unsigned inner = (1u << to) - (2u << from), begins = parts | 1, ends = to == 8 || parts >> to & 1;
    return is_touched(parts, from) && !(parts & (inner | COPIED_ONLY)) && begins >> from & 1 && ends;
}

void aero_forget_half(uint16_t *parts, unsigned from) {
    unsigned half = 0xfu << from, left = (*parts | HALVES) & ~(half << TOUCHED | (half & half << 1) | COPIED_ONLY);
    *parts = (uint16_t)(left & ALL_TOUCHED ? left : 0);
}

/* One access to bytes of the eight at the address. */
static void log_parts(const char *operation, enum access how, uintptr_t at, unsigned from, unsigned to, uintptr_t code) {
    uint16_t *kept = aero_parts_at(at);
    if (UNLIKELY(!kept)) {
        aero_line(operation, "", at, NULL, code);
        return;
    }
    unsigned before = *kept;
    if (LIKELY(is_one(before, from, to))) {
        aero_line(operation, "", at + from, NULL, code);
        return;
    }
    unsigned parts = how == COPY ? copied(before, from, to) : accessed(before, from, to);
    unsigned first = start_of(parts, from), last = end_of(parts, to - 1);
    if (*operation == 'w') parts = set_apart(parts, from, to);
    if (parts != before) *kept = (uint16_t)parts;
    for (; first < last; first = end_of(parts, first)) aero_line(operation, "", at + first, NULL, code);
}

/* A variable is so many bytes, of one global variable or from an address that they divide. */
static void log_grains(const char *operation, uintptr_t address, uintptr_t end, uintptr_t code) {
    uintptr_t grain = (uintptr_t)aero_grain, low, high;
    while (address < end) {
        aero_parts_at(address);                  /* (so that it is known to be in use, where it is allocated again) */
        aero_symbol_bounds(address, &low, &high);
        uintptr_t start = low + ((address - low) & -grain);
        aero_line(operation, "", start, NULL, code);
        address = high - start < grain ? high : start + grain;
    }
}

void aero_span(const char *operation, enum access how, uintptr_t address, size_t bytes, uintptr_t code) {
    uintptr_t end = address + bytes;
    if (aero_grain) {
        log_grains(operation, address, end, code);
        return;
    }
    while (address < end) {
        uintptr_t at = address & ~(uintptr_t)7, stop = end - at < 8 ? end : at + 8;
        log_parts(operation, how, at, (unsigned)(address - at), (unsigned)(stop - at), code);
        address = stop;
    }
}
