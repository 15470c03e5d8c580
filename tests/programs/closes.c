/* Closes each file but the three that it began with, and fills all numbers with pipes of its own: with a word as its argument the
 * even numbers are the ends to read from, else the odd ones. Then it does something that is logged, and says what has come into its
 * pipes, and which of them a child of its own finds closed. */
#include <stdio.h>
#include <sys/ioctl.h>
#include <sys/wait.h>
#include <unistd.h>

enum { MOST = 4096 };
static long count;
static int ends[MOST][2], pipes;

static void add(void) { count++; }

static int bytes_in_pipes(void) {
    int bytes = 0;
    for (int one = 0; one < pipes; one++) {
        int there = 0;
        if (!ioctl(ends[one][0], FIONREAD, &there)) bytes += there;
    }
    return bytes;
}

static int closed_pipes(void) {
    int closed = 0, there;
    for (int one = 0; one < pipes; one++)
        closed += ioctl(ends[one][0], FIONREAD, &there) != 0 || ioctl(ends[one][1], FIONREAD, &there) != 0;
    return closed;
}

int main(int words, char **word) {
    int status;
    (void)word;
    for (long number = 3; number < sysconf(_SC_OPEN_MAX); number++) close((int)number);
    if (words > 1) dup(0);
    while (pipes < MOST && !pipe(ends[pipes])) pipes++;
    for (int times = 0; times < 100000; times++) add();
    printf("%d bytes in pipes of the program\n", bytes_in_pipes());
    fflush(stdout);
    if (!fork()) {
        printf("%d pipes closed in a child\n", closed_pipes());
        return 0;
    }
    wait(&status);
    return 3;
}
