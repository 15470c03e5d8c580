// A Replace and a Delete of one key overlap in each round, and then the key is looked up. If Delete says that it removed the key,
// the key is gone, whichever of the two came first: Replace sets nothing if it finds no key. But Replace first looks for the key,
// and then sets it, and holds the lock in both steps but not in between.
package main

import (
	"fmt"
	"os"
	"strconv"
	"sync"
	"time"

	"github.com/karlseguin/ccache"
)

func main() {
	rounds := 300
	if len(os.Args) > 1 {
		rounds, _ = strconv.Atoi(os.Args[1])
	}
	cache := ccache.New(ccache.Configure())
	back := 0
	for i := 0; i < rounds; i++ {
		cache.Set("key", "old", time.Hour)
		deleted := false
		start := make(chan bool)
		var both sync.WaitGroup
		both.Add(2)
		go func() {
			defer both.Done()
			<-start
			cache.Replace("key", "new")
		}()
		go func() {
			defer both.Done()
			<-start
			deleted = cache.Delete("key")
		}()
		close(start)
		both.Wait()
		if deleted && cache.Get("key") != nil {
			back++
		}
	}
	fmt.Println("in", back, "of", rounds, "rounds the deleted key is there again")
}
