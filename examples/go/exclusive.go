// Two goroutines create one file with O_EXCL in each round, as programs do for a lock file. One of them has to be told that the file
// exists. But OpenFile of afero's file system in memory looks for the file under the lock for readers, gives this lock back, and
// creates the file under the lock for writers without another look.
package main

import (
	"fmt"
	"os"
	"strconv"
	"sync"

	"github.com/spf13/afero"
)

func main() {
	rounds := 300
	if len(os.Args) > 1 {
		rounds, _ = strconv.Atoi(os.Args[1])
	}
	files := afero.NewMemMapFs()
	twice := 0
	for i := 0; i < rounds; i++ {
		var created [2]bool
		start := make(chan bool)
		var both sync.WaitGroup
		both.Add(2)
		for k := range created {
			k := k
			go func() {
				defer both.Done()
				<-start
				_, err := files.OpenFile("/lock", os.O_CREATE|os.O_EXCL|os.O_WRONLY, 0o600)
				created[k] = err == nil
			}()
		}
		close(start)
		both.Wait()
		if created[0] && created[1] {
			twice++
		}
		files.Remove("/lock")
	}
	fmt.Println("in", twice, "of", rounds, "rounds both are told that they created the file")
}
