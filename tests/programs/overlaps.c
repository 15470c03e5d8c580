/* Calls the library with pointers whose memory overlaps, each call in a process of its own, and writes how that process ended. */
#include <aerodrome.h>
#include <signal.h>
#include <stdio.h>
#include <sys/wait.h>
#include <unistd.h>

static struct aerodrome monitor;
static union {
    char bytes[AERODROME_LINE];
    struct aerodrome monitor;
    struct aerodrome_verdict verdict;
    size_t size;
    uint32_t is_certain;
} both;

static uint32_t feed(void) { return aerodrome_feed(&both.monitor, both.bytes, 4); }
static uint32_t labels(void) { return aerodrome_begin_labelled(&both.monitor, false, both.bytes, 4, false); }
static uint32_t flagged_labels(void) { return aerodrome_begin_with(&both.monitor, AERODROME_ONLY, both.bytes, 4); }
static uint32_t shown_labels(void) { return aerodrome_begin_explained(&both.monitor, false, both.bytes, 4, true); }
static uint32_t certain(void) { return aerodrome_certain(&both.monitor, &both.is_certain); }
static uint32_t size_of_cycle(void) { return aerodrome_cycle(&monitor, both.bytes, sizeof both, &both.size); }
static uint32_t cycle(void) { size_t size; return aerodrome_cycle(&both.monitor, both.bytes, sizeof both, &size); }
static uint32_t verdict(void) { size_t size; return aerodrome_verdict(&monitor, &both.verdict, both.bytes, sizeof both, &size); }
static uint32_t size_of_verdict(void)
{
    struct aerodrome_verdict found;
    return aerodrome_verdict(&monitor, &found, both.bytes, sizeof both, (size_t *)(both.bytes + sizeof both - sizeof(size_t)));
}
static uint32_t beside(void)
{
    struct aerodrome_verdict found;
    return aerodrome_verdict(&monitor, &found, both.bytes, sizeof both - sizeof(size_t), (size_t *)(both.bytes + sizeof both - sizeof(size_t)));
}

static void show(const char *name, uint32_t (*call)(void))
{
    int status;
    fflush(stdout);
    if (fork() == 0) {
        fclose(stderr);
        aerodrome_begin(&monitor, false);
        _exit((int)call());
    }
    wait(&status);
    if (WIFSIGNALED(status) && WTERMSIG(status) == SIGABRT) {
        printf("%s: refused by an assertion\n", name);
    } else {
        printf("%s: status %d\n", name, WEXITSTATUS(status));
    }
}

int main(void)
{
    show("a struct and the bytes fed to it", feed);
    show("a struct and its labels", labels);
    show("a struct and the labels of a trace to be shown", shown_labels);
    show("a struct and the labels of a trace with flags", flagged_labels);
    show("a struct and whether it is certain", certain);
    show("a struct and the lines of its cycle", cycle);
    show("the lines of a cycle and their size", size_of_cycle);
    show("a verdict and its line", verdict);
    show("the line of a verdict and its size", size_of_verdict);
    show("a line and a size directly after it", beside);
    return 0;
}
