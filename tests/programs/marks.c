/* Adds to a variable at whose place another symbol marks that something begins. It has no byte, as __TMC_END__ of the linker, which
 * may lie where the first variable does. */
#include <stdio.h>

extern long value;
__asm__(".pushsection .data\n.balign 8\n"
        ".globl a_mark\n.type a_mark, %object\n.size a_mark, 0\na_mark:\n"
        ".globl value\n.type value, %object\n.size value, 8\nvalue: .quad 1\n.popsection");

int main(void) {
    value = value + 1;
    printf("%ld\n", value);
    return 0;
}
