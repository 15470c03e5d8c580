// One goroutine adds 0.5 and 1 in turn to a counter, so the counter has the values 0, 0.5, 1.5, 2, 3, 3.5 and so on. The other one
// reads the counter, as a scrape does, and counts the values 1, 2.5, 4 and so on, which the counter never had. Write reads the sum
// of the fractions first and the sum of the whole numbers after it, and both may have grown in between.
package main

import (
	"fmt"
	"math"
	"os"
	"strconv"
	"sync"

	"github.com/prometheus/client_golang/prometheus"
	metrics "github.com/prometheus/client_model/go"
)

func main() {
	reads := 20000
	if len(os.Args) > 1 {
		reads, _ = strconv.Atoi(os.Args[1])
	}
	counter := prometheus.NewCounter(prometheus.CounterOpts{Name: "litres"})
	var both sync.WaitGroup
	both.Add(2)
	go func() {
		defer both.Done()
		for i := 0; i < reads; i++ {
			counter.Add(0.5)
			counter.Add(1)
		}
	}()
	never := 0
	go func() {
		defer both.Done()
		for i := 0; i < reads; i++ {
			var read metrics.Metric
			counter.Write(&read)
			if math.Mod(read.Counter.GetValue(), 1.5) == 1 {
				never++
			}
		}
	}()
	both.Wait()
	fmt.Println(never, "of", reads, "reads return a value that the counter never had")
}
