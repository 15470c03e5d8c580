/* Whatever orders threads, one after the other, also where it isn't had. A helper runs while main waits for its end, so each run
 * has the same order.
 *
 *   locks posix    mutexes, spin locks, read-write locks, semaphores, waits that run out, what runs once
 *   locks c11      the same of threads.h
 *   locks meet     two threads at a barrier, one of which is told that it is the last
 *   locks unseen   a mutex that is taken by the C library's own function, which no log has, and waits that run out */
#define _GNU_SOURCE
#include <dlfcn.h>
#include <errno.h>
#include <pthread.h>
#include <semaphore.h>
#include <stdio.h>
#include <string.h>
#include <threads.h>
#include <time.h>

static pthread_mutex_t mutex = PTHREAD_MUTEX_INITIALIZER;
static pthread_cond_t never = PTHREAD_COND_INITIALIZER;
static pthread_spinlock_t spin;
static pthread_rwlock_t shared = PTHREAD_RWLOCK_INITIALIZER;
static sem_t free_places;
static pthread_once_t once = PTHREAD_ONCE_INIT;
static pthread_barrier_t barrier;
static mtx_t plain;
static cnd_t nothing;
static once_flag flag = ONCE_FLAG_INIT;
static const struct timespec past = {0, 0}, second = {4000000000, 0};
static int wrong;

static void expect(int result, int wanted) { wrong += result != wanted; }
static void prepare(void) {}

/* Main holds all of them. */
static void *finds_all_taken(void *unused) {
    expect(pthread_mutex_trylock(&mutex), EBUSY);
    expect(pthread_mutex_timedlock(&mutex, &past), ETIMEDOUT);
    expect(pthread_mutex_clocklock(&mutex, CLOCK_REALTIME, &past), ETIMEDOUT);
    expect(pthread_spin_trylock(&spin), EBUSY);
    expect(pthread_rwlock_tryrdlock(&shared), EBUSY);
    expect(pthread_rwlock_trywrlock(&shared), EBUSY);
    expect(pthread_rwlock_timedrdlock(&shared, &past), ETIMEDOUT);
    expect(pthread_rwlock_timedwrlock(&shared, &past), ETIMEDOUT);
    expect(sem_trywait(&free_places), -1);
    expect(sem_timedwait(&free_places, &past), -1);
    return unused;
}

static void unlock_mutex(void) { expect(pthread_mutex_unlock(&mutex), 0); }
static void unlock_shared(void) { expect(pthread_rwlock_unlock(&shared), 0); }

/* Nobody holds any. */
static void *takes_each(void *unused) {
    expect(pthread_mutex_trylock(&mutex), 0), unlock_mutex();
    expect(pthread_mutex_timedlock(&mutex, &second), 0), unlock_mutex();
    expect(pthread_mutex_clocklock(&mutex, CLOCK_REALTIME, &second), 0), unlock_mutex();
    expect(pthread_spin_trylock(&spin), 0), expect(pthread_spin_unlock(&spin), 0);
    expect(pthread_rwlock_tryrdlock(&shared), 0), unlock_shared();
    expect(pthread_rwlock_timedrdlock(&shared, &second), 0), unlock_shared();
    expect(pthread_rwlock_clockrdlock(&shared, CLOCK_REALTIME, &second), 0), unlock_shared();
    expect(pthread_rwlock_trywrlock(&shared), 0), unlock_shared();
    expect(pthread_rwlock_timedwrlock(&shared, &second), 0), unlock_shared();
    expect(pthread_rwlock_clockwrlock(&shared, CLOCK_REALTIME, &second), 0), unlock_shared();
    expect(sem_trywait(&free_places), 0);
    expect(sem_timedwait(&free_places, &second), 0);
    expect(sem_clockwait(&free_places, CLOCK_REALTIME, &second), 0);
    return unused;
}

/* Waits that run out have the lock again. */
static void *waits_in_vain(void *unused) {
    expect(pthread_mutex_lock(&mutex), 0);
    expect(pthread_cond_timedwait(&never, &mutex, &past), ETIMEDOUT);
    expect(pthread_cond_clockwait(&never, &mutex, CLOCK_REALTIME, &past), ETIMEDOUT);
    unlock_mutex();
    return unused;
}

static void *runs_once(void *unused) {
    expect(pthread_once(&once, prepare), 0);
    return unused;
}

static void run(void *(*start)(void *)) {
    pthread_t helper;
    pthread_create(&helper, NULL, start, NULL);
    pthread_join(helper, NULL);
}

static void posix(void) {
    pthread_spin_init(&spin, PTHREAD_PROCESS_PRIVATE);
    sem_init(&free_places, 0, 0);
    expect(pthread_mutex_lock(&mutex), 0), expect(pthread_spin_lock(&spin), 0), expect(pthread_rwlock_wrlock(&shared), 0);
    run(finds_all_taken);
    unlock_mutex(), expect(pthread_spin_unlock(&spin), 0), unlock_shared();
    for (int times = 0; times < 3; times++) expect(sem_post(&free_places), 0);
    run(takes_each);
    run(waits_in_vain);
    run(runs_once);
    run(runs_once);
}

static int finds_it_taken(void *unused) {
    (void)unused;
    expect(mtx_trylock(&plain), thrd_busy);
    expect(mtx_timedlock(&plain, &past), thrd_timedout);
    return 0;
}
static int takes_it(void *unused) {
    (void)unused;
    expect(mtx_trylock(&plain), thrd_success), expect(mtx_unlock(&plain), thrd_success);
    expect(mtx_timedlock(&plain, &second), thrd_success);
    expect(cnd_timedwait(&nothing, &plain, &past), thrd_timedout);
    expect(mtx_unlock(&plain), thrd_success);
    call_once(&flag, prepare);
    return 0;
}
static void run_c11(thrd_start_t start) {
    thrd_t helper;
    thrd_create(&helper, start, NULL);
    thrd_join(helper, NULL);
}
static void c11(void) {
    mtx_init(&plain, mtx_timed);
    cnd_init(&nothing);
    expect(mtx_lock(&plain), thrd_success);
    run_c11(finds_it_taken);
    expect(mtx_unlock(&plain), thrd_success);
    run_c11(takes_it);
    run_c11(takes_it);
}

static void *comes(void *is_last) {
    *(int *)is_last = pthread_barrier_wait(&barrier);
    return NULL;
}
static void meet(void) {
    pthread_t other;
    int lasts[2] = {0, 0};
    pthread_barrier_init(&barrier, NULL, 2);
    pthread_create(&other, NULL, comes, &lasts[0]);
    comes(&lasts[1]);
    pthread_join(other, NULL);
    expect(lasts[0] + lasts[1], PTHREAD_BARRIER_SERIAL_THREAD);
}

static void unseen(void) {
    void *library = dlopen("libc.so.6", RTLD_NOW);
    int (*lock)(pthread_mutex_t *) = (int (*)(pthread_mutex_t *))dlsym(library, "pthread_mutex_lock");
    expect(lock(&mutex), 0);
    expect(pthread_cond_timedwait(&never, &mutex, &past), ETIMEDOUT);
    expect(pthread_cond_clockwait(&never, &mutex, CLOCK_REALTIME, &past), ETIMEDOUT);
    unlock_mutex();
}

int main(int words, char **word) {
    const char *which = words > 1 ? word[1] : "";
    if (!strcmp(which, "posix")) posix();
    if (!strcmp(which, "c11")) c11();
    if (!strcmp(which, "meet")) meet();
    if (!strcmp(which, "unseen")) unseen();
    return wrong;
}
