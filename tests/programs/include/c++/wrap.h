// Stands for a header of the system, of a library that locks by its own classes.
#include <pthread.h>
namespace wrap {
struct Mutex {
    pthread_mutex_t mutex = PTHREAD_MUTEX_INITIALIZER;
    void lock() { pthread_mutex_lock(&mutex); }
    void unlock() { pthread_mutex_unlock(&mutex); }
};
struct Guard {
    Mutex &mutex;
    explicit Guard(Mutex &given) : mutex(given) { mutex.lock(); }
    ~Guard() { mutex.unlock(); }
};
} // namespace wrap
