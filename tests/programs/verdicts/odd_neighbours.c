// Verdict: serializable
// Blocks: fill
// Two threads fill five and three bytes side by side, read them again, and count in neighbouring fields of one structure.
#include "steps.h"
#include <pthread.h>
#include <string.h>
static struct __attribute__((packed)) {
    char text[8];
    char kind;
    int left;
    short right;
} shared;
static int fill(int who) {
    char *mine = shared.text + 5 * who;
    size_t bytes = who ? 3 : 5;
    memcpy(mine, "abcdefgh" + 5 * who, bytes);
    if (who) shared.right++;
    else shared.left++;
    make(who);
    await(1 - who);
    if (who) shared.right++;
    else shared.left++;
    return mine[bytes - 1];
}
static void *other(void *unused) { return fill(1) == 'h' ? unused : &shared; }
int main(void) {
    pthread_t thread;
    void *wrong;
    pthread_create(&thread, NULL, other, NULL);
    int last = fill(0);
    pthread_join(thread, &wrong);
    return wrong || last != 'e' || shared.left != 2 || shared.right != 2 || shared.kind;
}
