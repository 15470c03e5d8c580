/* What the files share that log what memory is allocated and copied. */
#ifndef AERODROME_MEMORY_H
#define AERODROME_MEMORY_H
#include "log.h"

/* Logs an access to each variable of the range, in steps, so that nobody waits long. */
void aero_range(const char *operation, uintptr_t address, size_t bytes, uintptr_t code);

#endif
