// Functions of each kind, of which some are blocks.
package main

import (
	"fmt"
	"sort"
	"sync"

	"programs/meet"
)

type adder interface{ add(int) }
type one struct{ n int }

var (
	mu    sync.Mutex
	count int
	done  = make(chan int)
	later func()
)

// What an init declares is none either, whoever calls it.
func init() { count = 1; later = func() { count++ } }

func plain()             { count++ }
func (o *one) add(k int) { mu.Lock(); o.n += k; mu.Unlock() }
func generic[T any](list []T) int {
	count += len(list)
	return count
}
func worker(n int)       { count += n; inner(); done <- 1 }
func inner()             { count++ }
func (o *one) run(n int) { o.n += n; inner(); done <- 1 }
func noEvents(n int) int { return n + 1 }
func sorts()             { sort.Slice([]int{count, 2, 1}, func(i, j int) bool { count++; return i < j }) }
func repeats() (err error) {
	defer func() { err = fmt.Errorf("%v", recover()) }()
	defer func() { panic(fmt.Sprint(recover(), "again")) }()
	count++
	panic("first")
}
func guarded()                     { mu.Lock(); defer mu.Unlock(); count++ }
func onlyTells(wg *sync.WaitGroup) { wg.Done() }
func tells(wg *sync.WaitGroup)     { count++; wg.Done() }

// Each goroutine runs alone. What only calls Done or Unlock is no block, as what Go makes for defer.
func waits() {
	var wg sync.WaitGroup
	for _, f := range []func(){
		func() { defer wg.Done(); guarded() },
		func() { guarded(); onlyTells(&wg) },
		func() { guarded(); tells(&wg) },
	} {
		wg.Add(1)
		go f()
		wg.Wait()
	}
}

func first(a, b, c, d int) { count += a; inner(); done <- b + c + d }
func (o *one) tell()       { o.n++; inner(); done <- 1 }
func within()              { count++; done <- 1 }

// What a goroutine starts with is no block, however it is started; what the literal calls that it starts with is one.
func starts() {
	o, list := &one{}, []int{1, 2, 3}
	f := o.run
	go first(1, 2, 3, 4)
	<-done
	go first(list[0], 2, 3, 4)
	<-done
	go first(list[0], list[1], 3, 4)
	<-done
	go first(list[0], list[1], list[2], 4)
	<-done
	go o.run(list[0])
	<-done
	go f(list[0])
	<-done
	meet.Start(func() { count++; inner(); done <- 1 })
	<-done
	meet.Start(o.tell)
	<-done
	go func() {
		within()
	}()
	<-done
}

func main() {
	plain()
	later()
	waits()
	starts()
	var a adder = &one{}
	a.add(2)
	generic([]string{"x"})
	go worker(3)
	<-done
	o := &one{}
	go o.run(4)
	<-done
	go func() { count++; inner(); done <- 1 }()
	<-done
	noEvents(1)
	sorts()
	if repeats() == nil {
		panic("not caught")
	}
	for i := 0; i < 2; i++ {
		defer plain()
	}
}
