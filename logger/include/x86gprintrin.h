/* Stands before the header of the same name of the compiler: what its functions do by a pointer has hooks. (two of the compiler's headers
 * include each other) */
#pragma GCC system_header
#ifndef AERODROME_X86GPRINTRIN_H
#define AERODROME_X86GPRINTRIN_H
#include_next <x86gprintrin.h>
#include <aerodrome/numbers.h>
#endif
