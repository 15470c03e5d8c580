// Two goroutines unregister one collector in each round. Unregister returns whether it removed the collector, so one of them has to
// be told false. But it looks for the collector under the lock for readers, gives this lock back, and removes the collector under
// the lock for writers without another look.
package main

import (
	"fmt"
	"os"
	"strconv"
	"sync"

	"github.com/prometheus/client_golang/prometheus"
)

func main() {
	rounds := 300
	if len(os.Args) > 1 {
		rounds, _ = strconv.Atoi(os.Args[1])
	}
	registry := prometheus.NewRegistry()
	counter := prometheus.NewCounter(prometheus.CounterOpts{Name: "jobs"})
	twice := 0
	for i := 0; i < rounds; i++ {
		registry.MustRegister(counter)
		var removed [2]bool
		start := make(chan bool)
		var both sync.WaitGroup
		both.Add(2)
		for k := range removed {
			k := k
			go func() {
				defer both.Done()
				<-start
				removed[k] = registry.Unregister(counter)
			}()
		}
		close(start)
		both.Wait()
		if removed[0] && removed[1] {
			twice++
		}
	}
	fmt.Println("in", twice, "of", rounds, "rounds both are told that they removed the counter")
}
