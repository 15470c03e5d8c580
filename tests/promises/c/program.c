/* What the three loggers are asked to log; ../java/Program.java and ../go/program.go do the same by the same words:
 *
 *   (no word)    nothing
 *   pay N        pays N times
 *   wait         pays three times, prints a line, and then waits until it is killed
 *   always       pays until it is killed, and prints how often in a file `paid`, every thousand times
 *   exit, abort  pays five times, and ends by exit(7), or as after a fault, within a function
 *   threads      pays under a lock, in four threads
 *   handed       locks in one thread, unlocks in another one, which locks and unlocks again, and then so does the first one
 *   long         calls a function whose name has 300 bytes
 *   child        pays three times, has another process run `pay 3`, and pays three times again */
#include <pthread.h>
#include <stdio.h>
#include <stdlib.h>
#include <string.h>
#include <unistd.h>

static long paid;
static pthread_mutex_t lock = PTHREAD_MUTEX_INITIALIZER;

void pay(void) { paid++; }
void unused(void) { paid--; }

#define JOIN(a, b, c, d, e, f, g, h, i, j) a##b##c##d##e##f##g##h##i##j
#define LONG JOIN(name_of_thirty_bytes_exactly__, name_of_thirty_bytes_exactly__, name_of_thirty_bytes_exactly__, \
                  name_of_thirty_bytes_exactly__, name_of_thirty_bytes_exactly__, name_of_thirty_bytes_exactly__, \
                  name_of_thirty_bytes_exactly__, name_of_thirty_bytes_exactly__, name_of_thirty_bytes_exactly__, \
                  name_of_thirty_bytes_exactly__)
void LONG(void) { paid++; }

static void times(int count) {
    while (count-- > 0) pay();
}

static void always(void) {
    for (long count = 1;; count++) {
        pay();
        if (count % 1000) continue;
        FILE *file = fopen("paid", "w");
        if (file) fprintf(file, "%ld\n", count), fclose(file);
    }
}

static void *pays(void *unused_word) {
    for (int turn = 0; turn < 100; turn++) {
        pthread_mutex_lock(&lock);
        pay();
        pthread_mutex_unlock(&lock);
    }
    return unused_word;
}
static void threads(void) {
    pthread_t thread[4];
    for (int one = 0; one < 4; one++) pthread_create(&thread[one], NULL, pays, NULL);
    for (int one = 0; one < 4; one++) pthread_join(thread[one], NULL);
}

static void *unlocks(void *unused_word) {
    pay();
    pthread_mutex_unlock(&lock);
    pthread_mutex_lock(&lock);
    pay();
    pthread_mutex_unlock(&lock);
    return unused_word;
}
static void handed(void) {
    pthread_t thread;
    pthread_mutex_lock(&lock);
    pthread_create(&thread, NULL, unlocks, NULL);
    pthread_join(thread, NULL);
    pthread_mutex_lock(&lock);
    pay();
    pthread_mutex_unlock(&lock);
}

static void leave(int by_fault) {
    times(5);
    if (by_fault) abort();
    exit(7);
}

static void child(const char *program) {
    char command[4096];
    times(3);
    snprintf(command, sizeof command, "'%s' pay 3", program);
    if (system(command)) exit(9);
    times(3);
}

int main(int words, char **word) {
    if (words < 2) return 0;
    if (!strcmp(word[1], "pay")) times(atoi(word[2]));
    else if (!strcmp(word[1], "wait")) {
        times(3);
        puts("ready");
        fflush(stdout);
        for (;;) pause();
    } else if (!strcmp(word[1], "always")) always();
    else if (!strcmp(word[1], "exit")) leave(0);
    else if (!strcmp(word[1], "abort")) leave(1);
    else if (!strcmp(word[1], "threads")) threads();
    else if (!strcmp(word[1], "handed")) handed();
    else if (!strcmp(word[1], "long")) LONG();
    else if (!strcmp(word[1], "child")) child(word[0]);
    else return 8;
    return 0;
}
