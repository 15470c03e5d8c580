/* Writes each of sixteen bytes that it allocates. */
#include <stdlib.h>

int main(void) {
    volatile char *bytes = malloc(16);
    for (int one = 0; one < 16; one++) bytes[one] = (char)one;
    return 0;
}
