/* Assembly that calls C with a stack that isn't aligned, as an encoder may where it knows what it calls. */
#include <stdatomic.h>
#include <stdio.h>
#include <string.h>

static long sum, from[4], to[4];
static size_t bytes = sizeof to;
static atomic_long times;

void add(long by) {
    sum += by;
    memcpy(to, from, bytes);
    times++;
}

void add_by_assembly(long by);
#ifdef __x86_64__
__asm__(".text\n.globl add_by_assembly\n.type add_by_assembly, @function\nadd_by_assembly:\ncall add\nret\n");
#else
void add_by_assembly(long by) { add(by); }
#endif

int main(void) {
    add_by_assembly(2);
    add_by_assembly(3);
    printf("%ld, %ld times\n", sum, times);
    return 0;
}
