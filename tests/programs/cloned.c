/* A child by clone: `cloned thread`, `cloned process` or `cloned borrowed`. It calls `add` five times, or as a process
 * so often that a log would be written out, and main calls it ten times before and ten times behind. */
#define _GNU_SOURCE
#include <sched.h>
#include <signal.h>
#include <stdio.h>
#include <string.h>
#include <sys/mman.h>
#include <sys/wait.h>
#include <unistd.h>

enum { STACK = 1 << 20 };
static int count, pipes[2];

static void add(void) { count++; }
static int child(void *given) {
    for (int times = *(int *)given; times > 0; times--) add();
    return write(pipes[1], "", 1) != 1;
}
int main(int words, char **word) {
    const char *how = words > 1 ? word[1] : "";
    char byte, *stack = mmap(NULL, STACK, PROT_READ | PROT_WRITE, MAP_PRIVATE | MAP_ANONYMOUS | MAP_STACK, -1, 0);
    int flags = !strcmp(how, "thread") ? CLONE_VM | CLONE_FS | CLONE_FILES | CLONE_SIGHAND | CLONE_THREAD | CLONE_SYSVSEM
        : !strcmp(how, "borrowed") ? CLONE_VM | CLONE_VFORK | SIGCHLD : SIGCHLD;
    if (pipe(pipes)) return 1;
    for (int one = 0; one < 10; one++) add();
    int times = flags == SIGCHLD ? 40000 : 5, id = clone(child, stack + STACK, flags, &times);
    if (id < 0 || read(pipes[0], &byte, 1) != 1) return 1;
    if (strcmp(how, "thread") && waitpid(id, NULL, 0) != id) return 1;
    for (int one = 0; one < 10; one++) add();
    printf("%d\n", count);
    return 0;
}
