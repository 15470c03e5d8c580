/* The functions that set handlers, as C of 1989 and older systems have them. */
#define _GNU_SOURCE
#include <signal.h>
#include <stdio.h>

typedef void (*handler)(int);
handler __sysv_signal(int, handler);

static int got;
static void handle(int signal) { got += signal; }
static const char *name(handler it) { return it == SIG_DFL ? "default" : it == SIG_IGN ? "ignored" : it == handle ? "handle" : "another"; }
static void try(const char *what, handler (*set)(int, handler)) {
    handler first = set(SIGUSR1, handle), second, third;
    raise(SIGUSR1);
    second = set(SIGUSR1, SIG_IGN);
    raise(SIGUSR1);
    third = set(SIGUSR1, SIG_DFL);
    printf("%s: %s, %s, %s, %d\n", what, name(first), name(second), name(third), got / SIGUSR1);
}
#pragma GCC diagnostic ignored "-Wdeprecated-declarations"
int main(void) {
    try("signal", signal);
    try("__sysv_signal", __sysv_signal);
    try("ssignal", ssignal);
    try("sigset", sigset);
    return 0;
}
