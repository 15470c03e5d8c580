/* Ends or restricts itself by system calls of its own, after ten blocks; after the last two, ten more follow.
 *
 *   exit      syscall(SYS_exit_group, 3)
 *   thread    syscall(SYS_exit, 3) within a block, the last one that is open
 *   strict    seccomp's strict mode: only read, write and exit are allowed
 *   filter    a filter by which writing to other files than the first three fails */
#define _GNU_SOURCE
#include <errno.h>
#include <linux/filter.h>
#include <linux/seccomp.h>
#include <stddef.h>
#include <string.h>
#include <sys/prctl.h>
#include <sys/syscall.h>
#include <unistd.h>

static int count;
static void add(void) { count++; }
static void add_ten(void) {
    for (int one = 0; one < 10; one++) add();
}
static void leave_thread(void) {
    count++;
    syscall(SYS_exit, 3);
}
static int filter(void) {
    struct sock_filter steps[] = {
        BPF_STMT(BPF_LD | BPF_W | BPF_ABS, offsetof(struct seccomp_data, nr)),
        BPF_JUMP(BPF_JMP | BPF_JEQ | BPF_K, SYS_write, 0, 3),
        BPF_STMT(BPF_LD | BPF_W | BPF_ABS, offsetof(struct seccomp_data, args[0])),
        BPF_JUMP(BPF_JMP | BPF_JGT | BPF_K, 2, 0, 1),
        BPF_STMT(BPF_RET | BPF_K, SECCOMP_RET_ERRNO | EPERM),
        BPF_STMT(BPF_RET | BPF_K, SECCOMP_RET_ALLOW),
    };
    struct sock_fprog program = {sizeof steps / sizeof *steps, steps};
    return prctl(PR_SET_NO_NEW_PRIVS, 1, 0, 0, 0) || prctl(PR_SET_SECCOMP, SECCOMP_MODE_FILTER, &program);
}
int main(int words, char **word) {
    if (words < 2) return 1;
    add_ten();
    if (!strcmp(word[1], "exit")) syscall(SYS_exit_group, 3);
    if (!strcmp(word[1], "thread")) leave_thread();
    int refused = !strcmp(word[1], "strict") ? prctl(PR_SET_SECCOMP, SECCOMP_MODE_STRICT) : filter();
    if (refused) return 77;
    add_ten();
    if (!strcmp(word[1], "strict")) syscall(SYS_exit, 3);
    return 3;
}
