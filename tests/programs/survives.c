/* A test framework goes on where a test calls abort() or fails an assertion, as its handler of SIGABRT leaves that by siglongjmp.
 *
 *   survives abort, assert, raise    the first test does that, and the second one runs
 *   survives returns                 the handler of the third one returns, so that abort() ends the process */
#include <assert.h>
#include <setjmp.h>
#include <signal.h>
#include <stdlib.h>
#include <string.h>

static sigjmp_buf back;
static int tested, returns;

static void handle(int signal) {
    (void)signal;
    if (!returns) siglongjmp(back, 1);
}
static void first(const char *way) {
    tested = 1;
    if (!strcmp(way, "abort")) abort();
    if (!strcmp(way, "raise")) raise(SIGABRT);
    assert(tested == 2);
}
static void second(void) { tested = 3; }
static void third(void) {
    returns = 1;
    abort();
}
int main(int count, char **words) {
    signal(SIGABRT, handle);
    if (count < 2) return 1;
    if (!sigsetjmp(back, 1)) first(words[1]);
    second();
    if (!strcmp(words[1], "returns")) third();
    return 0;
}
