// Does by the same words what ../c/program.c does.
package main

import (
	"fmt"
	"os"
	"os/exec"
	"strconv"
	"sync"
	"time"
)

var (
	paid int64
	lock sync.Mutex
)

func pay()    { paid++ }
func unused() { paid-- }

func name_of_thirty_bytes_exactly__name_of_thirty_bytes_exactly__name_of_thirty_bytes_exactly__name_of_thirty_bytes_exactly__name_of_thirty_bytes_exactly__name_of_thirty_bytes_exactly__name_of_thirty_bytes_exactly__name_of_thirty_bytes_exactly__name_of_thirty_bytes_exactly__name_of_thirty_bytes_exactly__() {
	paid++
}

func times(count int) {
	for ; count > 0; count-- {
		pay()
	}
}

func always() {
	for count := 1; ; count++ {
		pay()
		if count%1000 == 0 {
			os.WriteFile("paid", []byte(strconv.Itoa(count)+"\n"), 0o666)
		}
	}
}

func pays(all *sync.WaitGroup) {
	for turn := 0; turn < 100; turn++ {
		lock.Lock()
		pay()
		lock.Unlock()
	}
	all.Done()
}
func threads() {
	var all sync.WaitGroup
	all.Add(4)
	for one := 0; one < 4; one++ {
		go pays(&all)
	}
	all.Wait()
}

func handed() {
	done := make(chan bool)
	lock.Lock()
	go func() {
		pay()
		lock.Unlock()
		lock.Lock()
		pay()
		lock.Unlock()
		done <- true
	}()
	<-done
	lock.Lock()
	pay()
	lock.Unlock()
}

func leave(byFault bool) {
	times(5)
	if byFault {
		panic("a fault")
	}
	os.Exit(7)
}

func child() {
	times(3)
	command := exec.Command(os.Args[0], "pay", "3")
	command.Stderr = os.Stderr
	if command.Run() != nil {
		os.Exit(9)
	}
	times(3)
}

func main() {
	if len(os.Args) < 2 {
		return
	}
	switch os.Args[1] {
	case "pay":
		count, _ := strconv.Atoi(os.Args[2])
		times(count)
	case "wait":
		times(3)
		fmt.Println("ready")
		time.Sleep(time.Hour)
	case "always":
		always()
	case "exit":
		leave(false)
	case "abort":
		leave(true)
	case "threads":
		threads()
	case "handed":
		handed()
	case "long":
		name_of_thirty_bytes_exactly__name_of_thirty_bytes_exactly__name_of_thirty_bytes_exactly__name_of_thirty_bytes_exactly__name_of_thirty_bytes_exactly__name_of_thirty_bytes_exactly__name_of_thirty_bytes_exactly__name_of_thirty_bytes_exactly__name_of_thirty_bytes_exactly__name_of_thirty_bytes_exactly__()
	case "child":
		child()
	case "unused":
		unused()
	default:
		os.Exit(8)
	}
}
