// Verdict: violation next_job
// Verdict with AERODROME_SPLIT=waits: serializable
// A printer waits on a condition for the jobs of a batch. The block that waits began before the job was submitted, and sees it at its
// end. If it is split at the wait, each half is atomic.
#include "steps.h"
#include <pthread.h>
#include <string.h>
enum { ROOM = 4 };
struct job {
    int pages;
    char title[16];
};
static pthread_mutex_t lock = PTHREAD_MUTEX_INITIALIZER;
static pthread_cond_t submitted = PTHREAD_COND_INITIALIZER;
static struct job jobs[ROOM];
static int first, count;

static void submit(const char *title, int pages) {
    pthread_mutex_lock(&lock);
    struct job *job = &jobs[(first + count++) % ROOM];
    job->pages = pages;
    strcpy(job->title, title);
    pthread_cond_signal(&submitted);
    pthread_mutex_unlock(&lock);
}
static int next_job(char *title) {
    pthread_mutex_lock(&lock);
    while (!count) {
        make(0);
        pthread_cond_wait(&submitted, &lock);
    }
    struct job *job = &jobs[first];
    int pages = job->pages;
    strcpy(title, job->title);
    first = (first + 1) % ROOM;
    count--;
    pthread_mutex_unlock(&lock);
    return pages;
}
static void *printer(void *printed) {
    char title[16];
    for (int pages = next_job(title); pages; pages = next_job(title)) *(int *)printed += pages;
    return printed;
}
int main(void) {
    pthread_t thread;
    int printed = 0;
    pthread_create(&thread, NULL, printer, &printed);
    await(0);
    submit("invoice", 3);
    submit("letter", 2);
    submit("end", 0);
    pthread_join(thread, NULL);
    return printed != 5;
}
