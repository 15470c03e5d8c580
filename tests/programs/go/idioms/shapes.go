// Further programs of this package, by forms of the language: what has no name, what calls itself, what is of any type.
package main

import (
	"runtime"
	"sort"
	"sync"
	"sync/atomic"
)

// A lock and its number in a struct without a name.
var tally struct {
	sync.Mutex
	n int64
}

func tallyLook() int64    { tally.Lock(); defer tally.Unlock(); return tally.n }
func tallyChange(n int64) { tally.Lock(); defer tally.Unlock(); tally.n = n }

// A deferred literal changes what the lock guards, and unlocks.
func deferredClosure() {
	mu.Lock()
	defer func() {
		total++
		mu.Unlock()
	}()
}

// A lock for each key, which is there before a goroutine asks for it.
var keyLocks sync.Map

func addByKey() {
	found, _ := keyLocks.Load("key")
	lock := found.(*sync.Mutex)
	lock.Lock()
	total++
	lock.Unlock()
}
func locksOfKeys() {
	keyLocks.Store("key", new(sync.Mutex))
	often(addByKey)()
}

// A channel that is closed is nil from then on, and its case is never taken.
func sendAndClose(to chan int64) {
	for n := int64(0); n < 3; n++ {
		to <- n
	}
	close(to)
}
func drainBoth(one, other chan int64) (sum int64) {
	for one != nil || other != nil {
		select {
		case n, isOpen := <-one:
			if sum += n; !isOpen {
				one = nil
			}
		case n, isOpen := <-other:
			if sum += n; !isOpen {
				other = nil
			}
		}
	}
	return sum
}
func nilCases() {
	one, other := make(chan int64), make(chan int64, 2)
	go sendAndClose(one)
	go sendAndClose(other)
	if drainBoth(one, other) != 6 {
		panic("messages were lost")
	}
}

// A lock that is tried until it is had.
func spin() {
	for !mu.TryLock() {
		runtime.Gosched()
	}
	total++
	mu.Unlock()
}

// A look at elements of a slice that was handed out.
type shelf struct {
	mu    sync.Mutex
	items []int64
}

var shelved = &shelf{items: make([]int64, 1)}

func (s *shelf) All() []int64 { s.mu.Lock(); defer s.mu.Unlock(); return s.items }
func shelfLook() int64        { return shelved.All()[0] }
func shelfChange(n int64)     { shelved.mu.Lock(); shelved.items[0] = n; shelved.mu.Unlock() }

// Each goroutine has an element of its own.
var each [2]atomic.Int64

func ownOne() { each[0].Add(1); mark(0); after(1); each[0].Add(1); mark(2) }
func ownTwo() { after(0); each[1].Add(1); mark(1); after(2); each[1].Add(1) }

// The library calls a literal of the program while the lock is held.
var list = []int{3, 1, 2}

func sortAll() {
	mu.Lock()
	defer mu.Unlock()
	list[0] += 2
	sort.Slice(list, func(i, j int) bool { return list[i] < list[j] })
}

// A function that calls itself looks twice.
func sum(depth int) int64 {
	if depth == 0 {
		return 0
	}
	mu.Lock()
	seen := total
	mu.Unlock()
	if depth == 2 {
		mark(0)
		after(1)
	}
	return seen + sum(depth-1)
}

// A value of any type.
var held any = int64(0)

func heldLook() int64 {
	mu.Lock()
	defer mu.Unlock()
	switch n := held.(type) {
	case int64:
		return n
	case string:
		return int64(len(n))
	}
	return -1
}
func heldChange(n int64) { mu.Lock(); defer mu.Unlock(); held = n }

// One goroutine has the number, and does what others ask it for.
type asked struct {
	what func()
	done chan bool
}

var (
	requests = make(chan asked)
	owned    int64
)

func act() {
	for one := range requests {
		one.what()
		one.done <- true
	}
}
func askActor(what func()) {
	done := make(chan bool)
	requests <- asked{what, done}
	<-done
}
func askedLook() (n int64) { askActor(func() { n = owned }); return n }
func askedChange(n int64)  { askActor(func() { owned = n }) }
func acts(run func()) func() {
	return func() {
		go act()
		run()
		close(requests)
	}
}

func init() {
	for word, run := range map[string]func(){
		"anonymous-splits": splits(tallyLook, tallyChange), "deferred-closure": often(deferredClosure), "lock-of-key": locksOfKeys,
		"nil-case": nilCases, "spin-try": often(spin), "escaped-splits": splits(shelfLook, shelfChange),
		"own-atomics": func() { both(ownOne, ownTwo) }, "sorted": often(sortAll),
		"recursion-splits":   func() { both(func() { sum(2) }, func() { changeBetween(lockedChange) }) },
		"type-switch-splits": splits(heldLook, heldChange),
		"actor":              acts(often(func() { askedChange(askedLook() + 1) })), "actor-splits": acts(splits(askedLook, askedChange)),
	} {
		words[word] = run
	}
}
