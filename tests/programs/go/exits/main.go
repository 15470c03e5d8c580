// Ways to call os.Exit within a block.
package main

import (
	"log"
	"os"
	"strconv"
)

var (
	count  int
	status int
	opened = make(chan bool)
)

func inner() {
	count++
	os.Exit(status)
}

func outer() {
	count++
	inner()
}

func deferred() {
	defer inner()
	count++
}

func logs() {
	count++
	if status == 0 {
		os.Exit(0)
	}
	log.Fatal("told to")
}

// Stays open.
func other() {
	count++
	opened <- true
	select {}
}

func main() {
	status, _ = strconv.Atoi(os.Args[2])
	switch os.Args[1] {
	case "block", "all":
		outer()
	case "deferred":
		deferred()
	case "log":
		logs()
	case "start":
		go outer()
		select {}
	case "other":
		go func() {
			other()
			count++
		}()
		<-opened
		outer()
	}
}
