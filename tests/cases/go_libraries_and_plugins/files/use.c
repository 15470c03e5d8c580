#include <stdio.h>
#include <stdlib.h>
#include <sys/wait.h>
#include <unistd.h>

void Up(void);

/* What the race detector's library has by this name, and the thread sanitizer too. */
void __tsan_init(void) { puts("its own"); }

int main(int count, char **words) {
    Up();
    if (count > 1 && *words[1] == 'f') {
        pid_t child = fork();
        if (child == 0) exit(3);
        waitpid(child, NULL, 0);
        Up();
    }
    __tsan_init();
    if (count > 1 && *words[1] == '_') _exit(4);
    return 0;
}
