/* Gives up what it may do, and then forks: the parent adds ten times before and behind that, and the child ten times.
 *
 *   jailed root FOLDER   the folder is the root from then on
 *   jailed user          as nobody (65534) */
#define _GNU_SOURCE
#include <grp.h>
#include <stdio.h>
#include <string.h>
#include <sys/wait.h>
#include <unistd.h>

static long count;
static void add(void) { count++; }
static void add_ten_times(void) {
    for (int times = 0; times < 10; times++) add();
}

int main(int words, char **word) {
    const char *what = words > 1 ? word[1] : "";
    add_ten_times();
    if (!strcmp(what, "root") && (chroot(word[2]) || chdir("/"))) return 77;
    if (!strcmp(what, "user") && (setgroups(0, NULL) || setgid(65534) || setuid(65534))) return 77;
    pid_t child = fork();
    add_ten_times();
    if (child) waitpid(child, NULL, 0);
    return 0;
}
