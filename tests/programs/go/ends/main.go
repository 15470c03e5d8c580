// Ways in which a program ends. What it has counted, by a block each, is to be in the log.
package main

import (
	"fmt"
	"os"
	"os/exec"
	"os/signal"
	"strconv"
	"sync"
	"sync/atomic"
	"syscall"
)

var (
	mu    sync.Mutex
	count int
)

func add() { mu.Lock(); count++; mu.Unlock() }

// Writes how often it has added into the file progress, which it maps: so that is known wherever the process is killed.
func addAlways() {
	file, err := os.OpenFile("progress", os.O_RDWR|os.O_CREATE, 0666)
	if err != nil {
		panic(err)
	}
	if err := file.Truncate(8); err != nil {
		panic(err)
	}
	mapped, err := syscall.Mmap(int(file.Fd()), 0, 8, syscall.PROT_READ|syscall.PROT_WRITE, syscall.MAP_SHARED)
	if err != nil {
		panic(err)
	}
	for {
		add()
		mapped[0]++
		if mapped[0] == 0 {
			mapped[1]++
			if mapped[1] == 0 {
				mapped[2]++
			}
		}
	}
}

func main() {
	how := os.Args[1]
	for i := 0; i < 100; i++ {
		add()
	}
	switch how {
	case "return":
	case "panic":
		panic("told to")
	case "nil":
		var p *int
		*p = 1
	case "deadlock":
		mu.Lock()
		mu.Lock()
	case "always":
		addAlways()
	case "others":
		for i := 0; i < 3; i++ {
			go func() {
				for {
					add()
				}
			}()
		}
		for i := 0; i < 1000; i++ {
			add()
		}
		os.Exit(4)
	case "exec":
		out, err := exec.Command("echo", "hi").Output()
		fmt.Print(string(out))
		if err != nil {
			panic(err)
		}
		add()
	case "signal":
		came := make(chan os.Signal, 1)
		signal.Notify(came, syscall.SIGUSR1)
		syscall.Kill(os.Getpid(), syscall.SIGUSR1)
		<-came
		add()
	case "terminated":
		syscall.Kill(os.Getpid(), syscall.SIGTERM)
		select {}
	case "atomic":
		atomic.AddInt64(new(int64), 1)
	default:
		status, err := strconv.Atoi(how)
		if err != nil {
			panic(err)
		}
		os.Exit(status)
	}
}
