/* Variables of one name in a program, in a library, and in one that it loads: compiled with -DPART=1 or 2 it is a library. */
static int count;
#ifdef PART
#define WITH(name, part) name##part
#define NAME(name, part) WITH(name, part)
int NAME(left_of_, PART), NAME(right_of_, PART);         /* four bytes each, side by side */
void NAME(add_, PART)(void) { NAME(right_of_, PART) = NAME(left_of_, PART) = ++count; }
#else
#include <dlfcn.h>
void add_1(void);
int main(int words, char **word) {
    void *late = words > 1 ? dlopen(word[1], RTLD_NOW) : 0;
    void (*add_2)(void) = late ? (void (*)(void))dlsym(late, "add_2") : 0;
    count++;
    add_1();
    if (add_2) add_2();
    return 0;
}
#endif
