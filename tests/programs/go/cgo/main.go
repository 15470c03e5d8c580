// Go calls C, which calls Go, also from threads of its own.
package main

/*
#include <pthread.h>
extern int goBack(int);
static int twice(int x) { return 2 * x; }
static int call(int x) { return goBack(x); }
static void *run(void *unused) {
    (void)unused;
    for (int i = 0; i < 20; i++) goBack(i);
    return 0;
}
static void threads(void) {
    pthread_t a, b;
    pthread_create(&a, 0, run, 0);
    pthread_create(&b, 0, run, 0);
    pthread_join(a, 0);
    pthread_join(b, 0);
}
#cgo LDFLAGS: -lpthread
*/
import "C"

import "sync"

var (
	mu    sync.Mutex
	count int
)

func add(n int) {
	mu.Lock()
	count += n
	mu.Unlock()
}

//export goBack
func goBack(x C.int) C.int { add(int(x)); return x + 1 }

func work(i int) {
	add(int(C.twice(C.int(i))))
	C.call(3)
}

func main() {
	var wg sync.WaitGroup
	for i := 0; i < 10; i++ {
		wg.Add(1)
		go func(i int) {
			defer wg.Done()
			work(i)
		}(i)
	}
	wg.Wait()
	C.threads()
	println(count)
}
