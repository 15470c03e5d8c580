// Each word is a program of its own, which runs two functions side by side, most of them in steps: after(1) waits for mark(1). The
// file verdicts has what the checker is to say of its log.
package main

import (
	"context"
	"fmt"
	"log"
	"math/rand"
	"os"
	"runtime"
	"strconv"
	"strings"
	"sync"
	"sync/atomic"
	"time"

	"programs/meet"
)

type box struct{ a, b int64 }

var (
	points [8]meet.Point
	shared box
	mu     sync.Mutex
	flag   atomic.Int64
)

func mark(n int)  { points[n].Tell() }
func after(n int) { points[n].Await() }

func both(f, g func()) {
	var wg sync.WaitGroup
	wg.Add(2)
	go func() { f(); wg.Done() }()
	go func() { g(); wg.Done() }()
	wg.Wait()
}

// A cycle, if what f does in the first step comes before what the other block does: first f, then the other block, which then comes
// before the load.
func first(f func())  { f(); mark(0); after(1); flag.Load() }
func second(f func()) { after(0); f(); flag.Store(1); mark(1) }
func follows(f, g func()) func() {
	return func() { both(func() { first(f) }, func() { second(g) }) }
}

// f, g, f, g: a cycle, if two calls conflict.
func crossOne(f func()) { f(); mark(0); after(1); f(); mark(2) }
func crossTwo(f func()) { after(0); f(); mark(1); after(2); f() }
func crosses(f func()) func() {
	return func() { both(func() { crossOne(f) }, func() { crossTwo(f) }) }
}

func adds(it *int64) func() { return func() { atomic.AddInt64(it, 1) } }

// Stores a key that stays in the map when it is deleted.
func storeForGood() {
	keys.Store(1, 0)
	keys.Range(func(key, value any) bool { return true })
}

// A look and a change with somebody else's change between them.
func lookAndChange(look func() int64, change func(int64)) {
	seen := look()
	mark(0)
	after(1)
	change(seen + 1)
}
func changeBetween(change func(int64)) { after(0); change(7); mark(1) }
func splits(look func() int64, change func(int64)) func() {
	return func() { both(func() { lookAndChange(look, change) }, func() { changeBetween(change) }) }
}

// --- accesses
type pair struct{ low, high int32 }

var (
	halves pair
	table  = map[int]int{}
	bytes  [16]byte
)

func lowTwice() {
	halves.low++
	mark(0)
	after(1)
	halves.low++
	mark(2)
	halves.low++
}
func highTwice()        { after(0); halves.high++; mark(1); after(2); halves.high++ }
func copyBack()         { was := shared; mark(0); after(1); shared = was }
func addToB()           { after(0); shared.b++; mark(1) }
func copiedKnown()      { shared.b++; both(copyBack, addToB) }
func lowHalf()          { copy(bytes[:4], "abcd") }
func highHalf()         { copy(bytes[4:8], "abcd") }
func lowOne()           { lowHalf(); mark(0); after(1); lowHalf(); mark(2) }
func highOne()          { after(0); highHalf(); mark(1); after(2); highHalf() }
func lookAtMap() int64  { return int64(table[1]) }
func changeMap(n int64) { table[1] = int(n) }

// What lies on a goroutine's own stack is nobody else's, whatever lay there before: no event, and so no block.
func bumpOwn(at *int64) { *at++ }
func ownStack(i int) int64 {
	var own [4]int64
	for n := range own {
		bumpOwn(&own[n])
		runtime.Gosched()
	}
	return own[i%4]
}
func stacks() {
	var wg sync.WaitGroup
	for i := 0; i < 8; i++ {
		wg.Add(1)
		go func(i int) {
			ownStack(i)
			wg.Done()
		}(i)
	}
	wg.Wait()
}

// --- locks
var rw sync.RWMutex

func locked(f func())   { mu.Lock(); f(); mu.Unlock() }
func readLocked()       { rw.RLock(); _ = shared.a; rw.RUnlock() }
func writeLocked()      { rw.Lock(); shared.a++; rw.Unlock() }
func readHeld()         { rw.RLock(); mark(0); after(1); _ = shared.b; rw.RUnlock() }
func readMeanwhile()    { after(0); rw.RLock(); _ = shared.a; rw.RUnlock(); mark(1) }
func lookRW() (n int64) { rw.RLock(); n = shared.a; rw.RUnlock(); return }
func changeRW(n int64)  { rw.Lock(); shared.a = n; rw.Unlock() }
func locksIt()          { mu.Lock(); shared.a++; mark(0) }
func unlocksIt()        { after(0); shared.b++; mu.Unlock() }
func incr()             { mu.Lock(); shared.a++; mu.Unlock() }
func waitsByLock()      { mu.Lock(); go locksOn(); mu.Lock(); mu.Unlock() }
func waitsByWriter()    { rw.Lock(); go writesOn(); rw.Lock(); rw.Unlock() }
func waitsByReader()    { rw.Lock(); go writesOn(); rw.RLock(); rw.RUnlock() }
func writesOn()         { shared.a++; rw.Unlock() }
func locksOn()          { shared.a++; mu.Unlock() }
func unlockLater()      { mu.Lock(); shared.a++; time.AfterFunc(0, mu.Unlock) }
func tries() {
	if mu.TryLock() {
		mu.Unlock()
	}
	if rw.TryRLock() {
		rw.RUnlock()
	}
	if rw.TryLock() {
		rw.Unlock()
	}
}

// --- WaitGroup, Once, Cond, Map, Value
var (
	group sync.WaitGroup
	once  sync.Once
	cond  = sync.NewCond(&mu)
	ready bool
	keys  sync.Map
	value atomic.Value
)

func waiter() {
	mu.Lock()
	mark(0)
	for !ready {
		cond.Wait()
	}
	mu.Unlock()
}
func signaller() { after(0); mu.Lock(); ready = true; mu.Unlock(); cond.Broadcast() }

// The second one has found it undone, and waits, before the first one has done it.
func onceUser() { once.Do(func() { mark(0); blocked(2, "semacquire"); shared.a = 5 }); _ = shared.a }

// Waits until so many goroutines wait: for a lock or a WaitGroup ("semacquire"), or to send ("chan send").
func blocked(wanted int, how string) {
	stacks := make([]byte, 1<<16)
	for {
		n := runtime.Stack(stacks, true)
		if strings.Count(string(stacks[:n]), "["+how) >= wanted {
			return
		}
	}
}

// A Value that has none yet, and one that two goroutines change at once, each in one step.
var (
	unset, swapped atomic.Value
	lives          [400]context.Context
)

func lookAtUnset() int64 { n, _ := unset.Load().(int64); return n }
func storeUnset(n int64) { unset.Store(n) }
func swapUnset(n int64)  { unset.Swap(n) }
func replaceUnset(n int64) {
	if !unset.CompareAndSwap(nil, n) {
		unset.CompareAndSwap(int64(7), n)
	}
}
func setUnset(i int)      { unsets[i].Store(int64(i)) }
func beginsToEnd(i int)   { lives[i].Done() }
func swapAlone() (n bool) { swapped.Store(int64(0)); return swapped.CompareAndSwap(int64(0), int64(1)) }

var unsets [400]atomic.Value

// Each for the same numbers, side by side. A goroutine starts with eachOf, so that only f is a block.
func eachOf(f func(int), all *sync.WaitGroup) {
	for i := range lives {
		f(i)
	}
	all.Done()
}
func race(f func(int)) {
	var all sync.WaitGroup
	for i := 0; i < 8; i++ {
		all.Add(1)
		go eachOf(f, &all)
	}
	all.Wait()
}

// A goroutine starts with swaps, so that only swap is a block.
func swap(seen int64) { swapped.CompareAndSwap(seen, seen+1) }
func swaps(all *sync.WaitGroup) {
	for range lives {
		swap(swapped.Load().(int64))
	}
	all.Done()
}
func swapsAtOnce() {
	var all sync.WaitGroup
	swapped.Store(int64(0))
	for i := 0; i < 4; i++ {
		all.Add(1)
		go swaps(&all)
	}
	all.Wait()
}
func contexts() {
	for i := range lives {
		lives[i], _ = context.WithCancel(context.Background())
	}
	race(beginsToEnd)
}

// --- the standard library
var (
	lines   = log.New(nowhere{}, "", 0)
	draws   = func() { rand.Intn(6) }
	life, _ = context.WithCancel(context.Background())
)

type nowhere struct{}

func (nowhere) Write(b []byte) (int, error) { return len(b), nil }

func lookAtName() int64  { n, _ := strconv.ParseInt(os.Getenv("RULES"), 10, 64); return n }
func changeName(n int64) { os.Setenv("RULES", strconv.FormatInt(n, 10)) }

// --- channels
var (
	plain   = make(chan int)
	back    = make(chan int)
	one     = make(chan struct{}, 1)
	several = make(chan struct{}, 3)
	slot    = make(chan int, 1)
	queue   = make(chan int, 2)
	closing = make(chan int)
	full    = make(chan int, 1)
)

func sendTwo()          { plain <- 1; plain <- 2 }
func receiveTwo()       { <-plain; <-plain }
func ask() int          { plain <- 1; return <-back }
func answer()           { n := <-plain; back <- n + 1 }
func askLate() int      { plain <- 1; blocked(1, "chan send"); return <-back }
func holdOne()          { one <- struct{}{}; shared.a++; shared.a++; <-one }
func lookOne() int64    { one <- struct{}{}; n := shared.a; <-one; return n }
func changeOne(n int64) { one <- struct{}{}; shared.a = n; <-one }
func lookSlot() int64   { slot <- 1; n := shared.a; <-slot; return n }
func changeSlot(n int64) {
	slot <- 1
	shared.a = n
	<-slot
}

// Each receive may wait for its send.
func sendSlots()    { slot <- 1; slot <- 2 }
func receiveSlots() { <-slot; <-slot }

// The second one gives back first: what it takes isn't what the first one has put there.
func holdTwice()     { several <- struct{}{}; mark(0); after(1); <-several }
func holdMeanwhile() { after(0); several <- struct{}{}; <-several; mark(1) }

// Who takes back its own token doesn't wait, so its block goes on.
func keepsOne() {
	flag.Add(1)
	one <- struct{}{}
	<-one
	mark(0)
	after(1)
	flag.Add(1)
}
func keepsSeveral() {
	flag.Add(1)
	several <- struct{}{}
	<-several
	mark(0)
	after(1)
	flag.Add(1)
}
func keepsSlot() {
	flag.Add(1)
	slot <- 1
	<-slot
	mark(0)
	after(1)
	flag.Add(1)
}
func addsMeanwhile() { after(0); flag.Add(1); mark(1) }

// Who has closed a channel itself, and has done all itself, waits for nobody.
func closesOwn() int64 {
	n, own := flag.Load(), make(chan int64, 2)
	own <- 1
	own <- 2
	close(own)
	for m := range own {
		n += m
	}
	select {
	case <-own:
	case <-closing:
	}
	return n
}
func doneByItself() int64 {
	var own sync.WaitGroup
	n := flag.Load()
	own.Wait()
	own.Add(2)
	own.Done()
	own.Done()
	own.Wait()
	return n
}

// But another goroutine's close, and another one's Done among those of its own, are waited for.
var ended = make(chan int)

func foundEnded() int64 { n := flag.Load(); <-ended; return n }
func doneByBoth() int64 {
	n := flag.Load()
	group.Add(2)
	group.Done()
	go group.Done()
	group.Wait()
	return n
}

// A producer has more messages than there is room for: from the third one on it waits for a consumer.
func sendMany(to chan int) {
	for i := 0; i < 6; i++ {
		to <- i
	}
}
func sendManySelecting(to chan int) {
	for i := 0; i < 6; i++ {
		select {
		case to <- i:
		case <-closing:
		}
	}
}
func receiveMany(from chan int) {
	for i := 0; i < 6; i++ {
		<-from
	}
}
func signalMany()   { one <- struct{}{}; one <- struct{}{}; one <- struct{}{} }
func awaitSignals() { <-one; <-one; <-one }
func sendsTwice() {
	n := flag.Load()
	slot <- 1
	mark(0)
	after(1)
	slot <- 2
	flag.Store(n + 1)
}
func takesBetween() { after(0); <-slot; flag.Store(7); mark(1) }

// One goroutine takes a slot for another one that gives it back.
func hires() {
	for i := 0; i < 4; i++ {
		slot <- 1
		go fired()
	}
}
func fired() { incr(); <-slot }
func selectSend(c chan struct{}) {
	select {
	case c <- struct{}{}:
	case <-closing:
	}
}
func selectReceive(c chan struct{}) {
	select {
	case <-c:
	case <-closing:
	}
}
func selects() {
	stop := make(chan bool)
	go func() {
		for i := 0; i < 20; i++ {
			select {
			case several <- struct{}{}:
			case <-several:
			case slot <- i:
			case <-slot:
			default:
			}
		}
		close(stop)
	}()
	for i := 0; i < 20; i++ {
		select {
		case plain <- 1:
		case <-slot:
		case <-several:
		case slot <- 2:
		case <-time.After(time.Millisecond):
		}
	}
	<-stop
	_, open := <-stop
	if open {
		panic("open")
	}
}

// --- goroutines and timers
func starts(f func()) { go f(); after(1); flag.Load() }
func started()        { flag.Store(1); mark(1) }

// Waits until no other goroutine is there.
func alone() {
	for runtime.NumGoroutine() > 1 {
		runtime.Gosched()
	}
}
func startsAfterOthers() {
	for i := 0; i < 3; i++ {
		both(incr, incr)
	}
	alone()
	starts(started)
}
func fires() { mu.Lock(); shared.a++; mu.Unlock(); back <- 1 }
func timers() {
	for i := 0; i < 5; i++ {
		time.AfterFunc(time.Duration(i)*time.Millisecond, fires)
	}
	for i := 0; i < 5; i++ {
		<-back
	}
	tick := time.NewTicker(time.Millisecond)
	for i := 0; i < 5; i++ {
		<-tick.C
	}
	tick.Stop()
	// (stop locks what the timer's goroutine locks, so it waits for the end of that)
	c, stop := context.WithTimeout(context.Background(), 5*time.Millisecond)
	<-c.Done()
	alone()
	stop()
}
func many(rounds int) {
	for k := 0; k < rounds; k++ {
		var wg sync.WaitGroup
		for i := 0; i < 1000; i++ {
			wg.Add(1)
			go func() { incr(); wg.Done() }()
		}
		wg.Wait()
	}
}

// --- ways out of functions
func deeper(n int) int {
	shared.a++
	if n == 0 {
		panic("x")
	}
	return deeper(n-1) + 1
}
func catches() (err error) {
	defer func() {
		if r := recover(); r != nil {
			err = fmt.Errorf("caught")
			shared.b++
		}
	}()
	deeper(50)
	return nil
}
func quits() { shared.a++; runtime.Goexit() }
func grows(n int) byte {
	var room [1024]byte
	shared.a++
	if n > 0 {
		room[n%1024] = grows(n - 1)
	}
	return room[0]
}
func panics() {
	for i := 0; i < 3; i++ {
		if catches() == nil {
			panic("not caught")
		}
		incr()
	}
}
func quitting() {
	go func() {
		quits()
	}()
	alone()
}

// The stack moves within a block.
func growsBetween() { n := flag.Load(); mark(0); after(1); grows(3000); flag.Store(n + 1) }

// What is locked in a block that a panic leaves, and unlocked behind that.
func lookAndPanic() {
	defer func() { recover() }()
	incr()
	panic("x")
}
func outside() { lookAndPanic(); mark(0); after(1); incr() }
func between() { after(0); incr(); mark(1) }

// What a panic or Goexit leaves has ended before the functions are called that its callers have deferred.
func lockAndPanic() { mu.Lock(); defer mu.Unlock(); shared.a++; panic("x") }
func lockAndQuit()  { mu.Lock(); defer mu.Unlock(); shared.a++; runtime.Goexit() }
func incrLater()    { recover(); mark(0); after(1); incr() }
func above(f func()) {
	group.Add(1)
	go func() {
		defer group.Done()
		defer incrLater()
		f()
	}()
	between()
	group.Wait()
}

// But what it has deferred itself is a part of it.
func changeInPanic() {
	n := flag.Load()
	defer func() { recover(); mark(0); after(1); flag.Store(n + 1) }()
	lockAndPanic()
}

// A block ends with a release if nothing else is to do, and not before.
func endByDone()   { defer group.Done(); flag.Add(1) }
func endByUnlock() { mu.Lock(); defer mu.Unlock(); shared.a++ }
func endBySend()   { flag.Add(1); queue <- 1 }
func endByClose(c chan int) (n int) {
	defer close(c)
	defer func() { n++ }()
	return int(flag.Add(1))
}
func lastActs() {
	for i := 0; i < 300; i++ {
		c := make(chan int)
		queue = make(chan int, 2)
		group.Add(1)
		go func() {
			for _, f := range []func(){endByUnlock, endByDone} {
				f()
			}
		}()
		group.Wait()
		go func() {
			for range queue {
				endByClose(c)
				break
			}
		}()
		endBySend()
		<-c
	}
}
func doneThenChange() { n := flag.Load(); group.Done(); mark(0); after(1); flag.Store(n + 1) }
func waitThenEnd()    { cond.Wait() }
func waitsLast() {
	mu.Lock()
	mark(0)
	for !ready {
		waitThenEnd()
	}
	mu.Unlock()
}
func doneThenDeferred() {
	n := flag.Load()
	defer func() { mark(0); after(1); flag.Store(n + 1) }()
	defer group.Done()
}

// What another package starts a goroutine with is no block.
type counter struct{}

func (counter) incrTwice() { incr(); mark(0); after(1); incr(); mark(2) }
func given(f func())       { meet.Start(f); both(func() { between(); after(2) }, func() {}) }

// --- memory
func pools() {
	p := sync.Pool{New: func() any { return new(box) }}
	var wg sync.WaitGroup
	for i := 0; i < 20; i++ {
		wg.Add(1)
		go func() {
			for k := 0; k < 20; k++ {
				b := p.Get().(*box)
				b.a++
				p.Put(b)
			}
			wg.Done()
		}()
	}
	wg.Wait()
}

var pooled = sync.Pool{New: func() any { return new(box) }}

// (the race detector's own Pool keeps three of four)
func usePooled() {
	var taken [8]*box
	for i := range taken {
		taken[i] = pooled.Get().(*box)
		taken[i].a++
	}
	for _, b := range taken {
		pooled.Put(b)
	}
}

type account struct {
	mu sync.Mutex
	n  [6]int64
}

var kept *account

func open()  { kept = &account{}; kept.mu.Lock(); kept.n[1]++; kept.mu.Unlock() }
func stale() { kept = &account{}; kept.mu.Lock() }
func collected() {
	for i := 0; i < 200; i++ {
		for k := 0; k < 100; k++ {
			open()
		}
		both(stale, func() {})
		runtime.GC()
	}
}

var words = map[string]func(){
	"neighbours":      func() { both(lowTwice, highTwice) },
	"copied":          func() { both(copyBack, addToB) },
	"copied-known":    copiedKnown,
	"copied-halves":   func() { both(lowOne, highOne) },
	"map-access":      splits(lookAtMap, changeMap),
	"stacks":          stacks,
	"locks":           crosses(func() { locked(func() { shared.a++ }) }),
	"lock-follows":    follows(func() { locked(func() {}) }, func() { locked(func() {}) }),
	"handed":          func() { both(locksIt, unlocksIt); both(incr, incr) },
	"waits-by-lock":   waitsByLock,
	"waits-by-writer": waitsByWriter,
	"waits-by-reader": waitsByReader,
	"tries":           func() { both(tries, func() {}) },
	"unlocked-later":  func() { unlockLater(); both(incr, incr) },
	"readers":         func() { both(readHeld, readMeanwhile) },
	"readers-cross":   crosses(readLocked),
	"writer-splits":   splits(lookRW, changeRW),
	"reader-follows":  follows(func() { rw.Lock(); rw.Unlock() }, func() { rw.RLock(); rw.RUnlock() }),
	"writer-follows":  follows(func() { rw.RLock(); rw.RUnlock() }, func() { rw.Lock(); rw.Unlock() }),
	"done-cross":      func() { group.Add(4); crosses(func() { group.Done() })() },
	"wait-follows":    func() { group.Add(1); follows(func() { group.Done() }, func() { group.Wait() })() },
	"wait-two-follows": func() {
		group.Add(2)
		follows(func() { group.Done() }, func() { group.Done(); group.Wait() })()
	},
	"wait-cross":    crosses(func() { group.Wait() }),
	"once":          func() { both(onceUser, func() { after(0); onceUser() }) },
	"once-follows":  follows(func() { once.Do(func() {}) }, func() { once.Do(func() {}) }),
	"cond":          func() { both(waiter, signaller) },
	"keys":          crosses(func() { keys.Load(1) }),
	"key-follows":   func() { keys.Store(1, 0); follows(func() { keys.Store(1, 1) }, func() { keys.Load(1) })() },
	"key-found":     func() { keys.Store(1, 0); follows(func() { keys.Store(1, 1) }, func() { keys.LoadOrStore(1, 2) })() },
	"key-gone":      func() { storeForGood(); follows(func() { keys.Delete(1) }, func() { keys.LoadAndDelete(1) })() },
	"local-atomic":  func() { it := new(int64); both(func() { crossOne(func() { *it++ }) }, func() { crossTwo(adds(it)) }) },
	"add-cross":     crosses(func() { flag.Add(1) }),
	"load-cross":    crosses(func() { flag.Load() }),
	"failed-cross":  crosses(func() { flag.CompareAndSwap(5, 6) }),
	"atomic-splits": splits(flag.Load, flag.Store),
	"value-cross":   func() { value.Store(0); crosses(func() { value.Load() })() },
	"value-splits": func() {
		value.Store(int64(0))
		splits(func() int64 { n, _ := value.Load().(int64); return n }, func(n int64) { value.Store(n) })()
	},
	"unset-stores":     splits(lookAtUnset, storeUnset),
	"unset-swaps":      splits(lookAtUnset, swapUnset),
	"unset-replaced":   splits(lookAtUnset, replaceUnset),
	"unset-cross":      crosses(func() { unset.Load() }),
	"unset-at-once":    func() { race(setUnset) },
	"swaps-at-once":    swapsAtOnce,
	"swap-alone":       func() { swapAlone() },
	"contexts-begin":   contexts,
	"library-lines":    crosses(func() { lines.Print("x") }),
	"library-draws":    crosses(draws),
	"library-life":     crosses(func() { life.Err() }),
	"library-data":     splits(lookAtName, changeName),
	"messages":         func() { both(sendTwo, receiveTwo) },
	"asks-late":        func() { both(func() { askLate() }, answer) },
	"asks":             func() { both(func() { ask() }, answer) },
	"message-follows":  follows(func() { queue <- 1 }, func() { <-queue }),
	"semaphore":        func() { both(holdOne, holdOne) },
	"semaphore-splits": splits(lookOne, changeOne),
	"slot-splits":      splits(lookSlot, changeSlot),
	"semaphore-kept":   func() { both(keepsOne, addsMeanwhile) },
	"several-kept":     func() { both(keepsSeveral, addsMeanwhile) },
	"slot-received":    func() { go sendSlots(); receiveSlots() },
	"slot-kept":        func() { both(keepsSlot, addsMeanwhile) },
	"own-close":        splits(closesOwn, flag.Store),
	"own-done":         splits(doneByItself, flag.Store),
	"others-close":     func() { close(ended); splits(foundEnded, flag.Store)() },
	"others-done":      splits(doneByBoth, flag.Store),
	"sends-many":       func() { both(func() { sendMany(queue) }, func() { receiveMany(queue) }) },
	"selects-many":     func() { both(func() { sendManySelecting(queue) }, func() { receiveMany(queue) }) },
	"signals-many":     func() { both(signalMany, awaitSignals) },
	"sends-twice":      func() { both(sendsTwice, takesBetween) },
	"hires":            func() { hires(); alone() },
	"semaphore-cross":  func() { both(holdTwice, holdMeanwhile) },
	"select-one":       follows(func() { selectSend(one) }, func() { selectReceive(one) }),
	"select-several":   follows(func() { selectSend(several) }, func() { selectReceive(several) }),
	"selects":          selects,
	"close-follows":    follows(func() { close(closing) }, func() { <-closing }),
	"full-follows":     follows(func() { full <- 1; close(full) }, func() { <-full; <-full }),
	"starts":           func() { starts(started) },
	"starts-again":     startsAfterOthers,
	"timer-follows":    func() { first(func() { time.AfterFunc(0, func() { second(func() {}) }) }) },
	"timers":           timers,
	"many":             func() { many(70) },
	"panics":           panics,
	"panic-leaves":     func() { both(outside, between) },
	"quits":            quitting,
	"panic-above":      func() { above(lockAndPanic) },
	"quit-above":       func() { above(lockAndQuit) },
	"panic-own":        func() { both(changeInPanic, func() { changeBetween(flag.Store) }) },
	"last-acts":        lastActs,
	"cond-last":        func() { both(waitsLast, signaller) },
	"done-then":        func() { group.Add(1); both(doneThenChange, func() { changeBetween(flag.Store) }) },
	"done-deferred":    func() { group.Add(1); both(doneThenDeferred, func() { changeBetween(flag.Store) }) },
	"given":            func() { given(func() { counter{}.incrTwice() }) },
	"given-method":     func() { given(counter{}.incrTwice) },
	"grows":            func() { both(func() { grows(3000) }, func() {}) },
	"grows-splits":     func() { both(growsBetween, func() { changeBetween(flag.Store) }) },
	"pools":            pools,
	"pooled-cross":     crosses(usePooled),
	"collected":        collected,
}

func main() {
	for n := range points {
		points[n] = meet.New()
	}
	run := words[os.Args[1]]
	if run == nil {
		fmt.Println("no such word")
		os.Exit(2)
	}
	run()
}
