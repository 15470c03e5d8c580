// Two goroutines rename one file in each round. One of them has to be told that the file doesn't exist any more. But Rename of afero's
// file system in memory looks for the file under the lock for readers, and takes the lock for writers without another look. If the
// other goroutine renames the file in between, Rename uses a nil pointer, and the program crashes.
package main

import (
	"fmt"
	"os"
	"strconv"
	"sync"

	"github.com/spf13/afero"
)

func main() {
	rounds := 300
	if len(os.Args) > 1 {
		rounds, _ = strconv.Atoi(os.Args[1])
	}
	files := afero.NewMemMapFs()
	for i := 0; i < rounds; i++ {
		files.Create("/old")
		start := make(chan bool)
		var both sync.WaitGroup
		both.Add(2)
		for _, name := range []string{"/left", "/right"} {
			name := name
			go func() {
				defer both.Done()
				<-start
				files.Rename("/old", name)
			}()
		}
		close(start)
		both.Wait()
	}
	fmt.Println("all", rounds, "rounds ended")
}
