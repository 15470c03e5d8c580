/* Stands before the header of the same name of libstdc++, which each of its headers includes: std::string is compiled with the program,
 * as it is from C++20 on. The one in the library has no hooks, so that nobody would learn what it does to the program's memory. */
#pragma GCC system_header
#include_next <bits/c++config.h>
#undef _GLIBCXX_EXTERN_TEMPLATE
#define _GLIBCXX_EXTERN_TEMPLATE -1
