// What Go programs usually do. Each word is a program of its own, as in ../rules; the file verdicts has what the checker is to say of its
// log, by reasoning alone.
package main

import (
	"context"
	"errors"
	"os"
	"runtime"
	"sync"
	"sync/atomic"
	"time"

	"programs/meet"
)

var (
	points [8]meet.Point
	mu     sync.Mutex
	flag   atomic.Int64
	total  int64
)

func mark(n int)  { points[n].Tell() }
func after(n int) { points[n].Await() }

func both(f, g func()) {
	var wg sync.WaitGroup
	wg.Add(2)
	go func() { f(); wg.Done() }()
	go func() { g(); wg.Done() }()
	wg.Wait()
}

// A cycle, if what f does in the first step comes before what g does.
func first(f func())  { f(); mark(0); after(1); flag.Load() }
func second(f func()) { after(0); f(); flag.Store(1); mark(1) }
func follows(f, g func()) func() {
	return func() { both(func() { first(f) }, func() { second(g) }) }
}

// f, f, f, f by turns: a cycle, if two of them conflict.
func crossOne(f func()) { f(); mark(0); after(1); f(); mark(2) }
func crossTwo(f func()) { after(0); f(); mark(1); after(2); f() }
func crosses(f func()) func() {
	return func() { both(func() { crossOne(f) }, func() { crossTwo(f) }) }
}

// A look and a change with somebody else's change between them.
func lookAndChange(look func() int64, change func(int64)) {
	seen := look()
	mark(0)
	after(1)
	change(seen + 1)
}
func changeBetween(change func(int64)) { after(0); change(7); mark(1) }
func splits(look func() int64, change func(int64)) func() {
	return func() { both(func() { lookAndChange(look, change) }, func() { changeBetween(change) }) }
}

// Each a hundred times, side by side. A goroutine starts with repeat, so that only f and g are blocks.
func repeat(f func(), all *sync.WaitGroup) {
	for i := 0; i < 100; i++ {
		f()
		runtime.Gosched()
	}
	all.Done()
}
func oftenBoth(f, g func()) {
	var all sync.WaitGroup
	all.Add(2)
	go repeat(f, &all)
	go repeat(g, &all)
	all.Wait()
}
func often(f func()) func() { return func() { oftenBoth(f, f) } }

// --- channels
var gate = make(chan struct{}, 1)

func tryGate() {
	select {
	case gate <- struct{}{}:
		total++
		<-gate
	default:
	}
}
func gateLook() int64    { gate <- struct{}{}; was := total; <-gate; return was }
func gateChange(n int64) { gate <- struct{}{}; total = n; <-gate }

func closedCross() {
	closed := make(chan int)
	close(closed)
	crosses(func() { <-closed })()
}

func produce(to chan<- int64, from int64) {
	for n := from; n < from+5; n++ {
		to <- n
	}
	close(to)
}

// A channel that has ended becomes nil, so select no longer chooses it.
func merge(a, b <-chan int64) (sum int64) {
	for a != nil || b != nil {
		select {
		case n, ok := <-a:
			if !ok {
				a = nil
			}
			sum += n
		case n, ok := <-b:
			if !ok {
				b = nil
			}
			sum += n
		}
	}
	return sum
}
func merges() {
	a, b := make(chan int64), make(chan int64)
	go produce(a, 0)
	go produce(b, 100)
	merge(a, b)
}

func awaitOrGiveUp(c <-chan int64) int64 {
	select {
	case n := <-c:
		return n
	case <-time.After(2 * time.Millisecond):
		return -1
	}
}
func timeout() {
	never := make(chan int64)
	both(func() { awaitOrGiveUp(never) }, func() { awaitOrGiveUp(nil) })
}

// A block ends where it waits, so the look is in the part behind the wait.
func timeoutLook() int64 { awaitOrGiveUp(nil); mu.Lock(); defer mu.Unlock(); return total }

func lockedLook() int64    { mu.Lock(); defer mu.Unlock(); return total }
func lockedChange(n int64) { mu.Lock(); defer mu.Unlock(); total = n }

// --- contexts
func serve(ctx context.Context, work <-chan int64) error {
	for {
		select {
		case <-ctx.Done():
			return ctx.Err()
		case n := <-work:
			lockedChange(n)
		}
	}
}
func contextTree() {
	root, cancel := context.WithCancel(context.Background())
	work := make(chan int64)
	var all sync.WaitGroup
	for i := 0; i < 3; i++ {
		child, end := context.WithTimeout(context.WithValue(root, &total, i), time.Hour)
		all.Add(1)
		go func() { defer all.Done(); defer end(); serve(child, work) }()
	}
	for n := int64(0); n < 6; n++ {
		work <- n
	}
	cancel()
	all.Wait()
}
func contextFollows() {
	root, cancel := context.WithCancel(context.Background())
	done := root.Done()
	follows(cancel, func() { <-done })()
}
func contextFollowsChild() {
	root, cancel := context.WithCancel(context.Background())
	child, end := context.WithCancel(root)
	defer end()
	done := child.Done()
	follows(cancel, func() { <-done })()
}

// --- as errgroup
type group struct {
	wg   sync.WaitGroup
	once sync.Once
	err  error
}

func (g *group) Go(f func() error) {
	g.wg.Add(1)
	go func() {
		defer g.wg.Done()
		if err := f(); err != nil {
			g.once.Do(func() { g.err = err })
		}
	}()
}
func (g *group) Wait() error { g.wg.Wait(); return g.err }

func add(n int64) error { mu.Lock(); defer mu.Unlock(); total += n; return nil }
func groups() {
	var g group
	for n := int64(0); n < 4; n++ {
		n := n
		g.Go(func() error { return add(n) })
	}
	g.Wait()
}
func groupFirst() {
	var g group
	for n := 0; n < 3; n++ {
		g.Go(func() error { add(1); return errors.New("failed") })
	}
	if g.Wait() == nil {
		os.Exit(9)
	}
}
func groupSplits() {
	var g group
	g.Go(func() error { lookAndChange(lockedLook, lockedChange); return nil })
	g.Go(func() error { changeBetween(lockedChange); return nil })
	g.Wait()
}

// --- Cond
var (
	cond  = sync.NewCond(&mu)
	ready bool
)

func awaitReady() {
	mu.Lock()
	for !ready {
		cond.Wait()
	}
	total++
	mu.Unlock()
}
func tellAll() { mu.Lock(); ready = true; cond.Broadcast(); mu.Unlock() }
func broadcast() {
	var all sync.WaitGroup
	for i := 0; i < 3; i++ {
		all.Add(1)
		go func() { awaitReady(); all.Done() }()
	}
	time.Sleep(time.Millisecond)
	tellAll()
	all.Wait()
}
func readyLook() int64 { awaitReady(); return lockedLook() }
func broadcastSplits() {
	tellAll()
	splits(readyLook, lockedChange)()
}

// A Cond may have the locks of a RWMutex, or one of the program's own.
var (
	asWriter = sync.NewCond(&rw)
	asReader = sync.NewCond(rw.RLocker())
	own      ownLock
	asOwn    = sync.NewCond(&own)
)

type ownLock struct{ inner sync.Mutex }

func (l *ownLock) Lock()   { l.inner.Lock() }
func (l *ownLock) Unlock() { l.inner.Unlock() }

func waitAsWriter() {
	rw.Lock()
	for mark(0); !ready; {
		asWriter.Wait()
	}
	rw.Unlock()
}
func waitAsReader() {
	rw.RLock()
	for mark(0); !ready; {
		asReader.Wait()
	}
	rw.RUnlock()
}
func tellAsWriter() { rw.Lock(); ready = true; asWriter.Broadcast(); asReader.Broadcast(); rw.Unlock() }
func waitForOwn() {
	own.Lock()
	for mark(0); !ready; {
		asOwn.Wait()
	}
	own.Unlock()
}
func tellOwn() { own.Lock(); ready = true; asOwn.Broadcast(); own.Unlock() }

// (the lock can be had once the other one waits)
func waits(wait, tell func()) func() {
	return func() { both(wait, func() { after(0); tell() }) }
}

// --- sync.Map
var table sync.Map

func getOrMake() { was, _ := table.LoadOrStore("key", new(int64)); _ = was }
func take()      { table.LoadAndDelete("key") }
func takeBoth()  { table.Store("key", 1); both(take, take) }
func mapLook() int64 {
	was, _ := table.Load("key")
	return was.(int64)
}
func mapChange(n int64) { table.Store("key", n) }
func mapIncrement()     { mapChange(0); splits(mapLook, mapChange)() }

func lookAtAll(pause func()) {
	table.Range(func(key, value any) bool { pause(); return true })
}
func lookAtAllSlowly() {
	n := 0
	lookAtAll(func() {
		if n == 0 {
			mark(0)
			after(1)
		}
		n++
	})
}
func storeBoth() { after(0); table.Store(1, 7); table.Store(2, 7); mark(1) }
func rangeTorn() {
	table.Store(1, 0)
	table.Store(2, 0)
	both(lookAtAllSlowly, storeBoth)
}
func ranges() {
	table.Store(1, 0)
	table.Store(2, 0)
	crosses(func() { lookAtAll(func() {}) })()
}

// --- atomic values
var (
	config  atomic.Value
	current atomic.Pointer[int64]
)

func useConfigOnce() { total := config.Load().(int64); _ = total }
func valueOnce() {
	config.Store(int64(0))
	both(func() { mark(0); after(1); useConfigOnce() }, func() { after(0); config.Store(int64(1)); mark(1) })
}
func useConfigTwice() { config.Load(); mark(0); after(1); config.Load() }
func valueTwice() {
	config.Store(int64(0))
	both(useConfigTwice, func() { storeConfig() })
}
func storeConfig() { after(0); config.Store(int64(1)); mark(1) }

func swapOne() { one := int64(1); current.Swap(&one) }
func pointerLook() int64 {
	return *current.Load()
}
func pointerChange(n int64) { current.Store(&n) }
func pointerSplits()        { pointerChange(0); splits(pointerLook, pointerChange)() }

// --- RWMutex
var rw sync.RWMutex

func tryWriter() {
	if rw.TryLock() {
		total++
		rw.Unlock()
	}
}
func tryReader() {
	if rw.TryRLock() {
		_ = total
		rw.RUnlock()
	}
}
func onlyTryWriter() {
	if rw.TryLock() {
		rw.Unlock()
	}
}
func onlyTryReader() {
	if rw.TryRLock() {
		rw.RUnlock()
	}
}
func tryWriters() {
	both(func() { rw.RLock(); mark(0); after(1); rw.RUnlock() }, func() { after(0); tryWriter(); mark(1) })
}
func tryReaders() {
	both(func() { rw.Lock(); mark(0); after(1); total++; rw.Unlock() }, func() { after(0); tryReader(); mark(1) })
}

// --- Once
var once sync.Once

func failOnce() {
	defer func() { _ = recover() }()
	once.Do(func() { total++; panic("failed") })
}

var (
	onceValue sync.Once
	value     *int64
)

func get() int64 {
	onceValue.Do(func() { value = new(int64); *value = 5 })
	return *value
}

// --- Pool, WaitGroup
var buffers = sync.Pool{New: func() any { return new([8]int64) }}

func useBuffer() {
	buffer := buffers.Get().(*[8]int64)
	for i := range buffer {
		buffer[i]++
	}
	buffers.Put(buffer)
}

func rounds() {
	var wg sync.WaitGroup
	for round := 0; round < 3; round++ {
		for i := 0; i < 2; i++ {
			wg.Add(1)
			go func() { defer wg.Done(); add(1) }()
		}
		wg.Wait()
		_ = total
	}
}
func roundsFollow() {
	var wg sync.WaitGroup
	wg.Add(1)
	wg.Done()
	wg.Wait()
	wg.Add(1)
	follows(wg.Done, wg.Wait)()
}

// --- workers, pipelines, limits
func work(n int64) int64 { add(n); return n * n }
func workers() {
	jobs, results := make(chan int64), make(chan int64, 3)
	var all sync.WaitGroup
	for i := 0; i < 3; i++ {
		all.Add(1)
		go func() {
			defer all.Done()
			for n := range jobs {
				results <- work(n)
			}
		}()
	}
	go func() { produceAll(jobs); all.Wait(); close(results) }()
	for n := range results {
		total2 += n
	}
}

var total2 int64

func produceAll(jobs chan<- int64) {
	for n := int64(0); n < 9; n++ {
		jobs <- n
	}
	close(jobs)
}

// Both workers have a job; the first one looks, the second one changes, and then the first one changes.
func slowJob() { lookAndChange(lockedLook, lockedChange) }
func fastJob() { changeBetween(lockedChange) }
func workersSplit() {
	jobs := make(chan func(), 2)
	var all sync.WaitGroup
	all.Add(2)
	for i := 0; i < 2; i++ {
		go func() {
			for job := range jobs {
				job()
				all.Done()
			}
		}()
	}
	jobs <- slowJob
	jobs <- fastJob
	all.Wait()
	close(jobs)
}

func square(n int64) int64 { return n * n }
func pipeline() {
	numbers, squares := make(chan int64), make(chan int64)
	go produce(numbers, 1)
	go func() {
		for n := range numbers {
			squares <- square(n)
		}
		close(squares)
	}()
	for n := range squares {
		add(n)
	}
}

var slots = make(chan struct{}, 2)

func limited() {
	slots <- struct{}{}
	defer func() { <-slots }()
	add(1)
}

func ticks() {
	ticker := time.NewTicker(200 * time.Microsecond)
	defer ticker.Stop()
	onTick := func() {
		for i := 0; i < 3; i++ {
			<-ticker.C
			add(1)
		}
	}
	both(onTick, onTick)
}

// --- panics, Goexit, defer
func risky() { mu.Lock(); defer mu.Unlock(); total++; panic("failed") }
func guarded() {
	defer func() { _ = recover() }()
	risky()
}
func recoveredLook() (was int64) {
	defer func() { _ = recover(); was = total }()
	risky()
	return 0
}
func goesAway() { mu.Lock(); defer mu.Unlock(); total++; runtime.Goexit() }
func goexits() {
	var all sync.WaitGroup
	for i := 0; i < 4; i++ {
		all.Add(1)
		go func() { defer all.Done(); goesAway() }()
	}
	all.Wait()
}

var locks [3]sync.Mutex

func lockAll() {
	for i := range locks {
		locks[i].Lock()
		defer locks[i].Unlock()
	}
	total++
}

// Each turn locks for itself: a look in the first one, a change in the second.
func lookThenChange() {
	var seen int64
	for turn := 0; turn < 2; turn++ {
		func() {
			mu.Lock()
			defer mu.Unlock()
			if turn == 0 {
				seen = total
			} else {
				total = seen + 1
			}
		}()
		if turn == 0 {
			mark(0)
			after(1)
		}
	}
}

// --- methods, generics, embedding
type account struct {
	sync.Mutex
	money int64
}

func (a *account) Look() int64    { a.Lock(); defer a.Unlock(); return a.money }
func (a *account) Change(n int64) { a.Lock(); defer a.Unlock(); a.money = n }
func (a *account) Pay()           { a.Lock(); defer a.Unlock(); a.money++ }

type lookable interface {
	Look() int64
	Change(int64)
}

func (b *box[T]) Update(f func(T) T) { b.lock.Lock(); defer b.lock.Unlock(); b.value = f(b.value) }
func (b *box[T]) Get() T             { b.lock.Lock(); defer b.lock.Unlock(); return b.value }
func (b *box[T]) Set(to T)           { b.lock.Lock(); defer b.lock.Unlock(); b.value = to }

type box[T any] struct {
	lock  sync.Mutex
	value T
}

var (
	mine  = &account{}
	boxed = &box[int64]{}
)

func throughInterface() {
	var it lookable = mine
	splits(it.Look, it.Change)()
}

// A copy of a struct that has a pointer to a mutex shares it, and what it locks.
type shared struct {
	lock *sync.Mutex
	of   *int64
}

func (s shared) Look() int64    { s.lock.Lock(); defer s.lock.Unlock(); return *s.of }
func (s shared) Change(n int64) { s.lock.Lock(); defer s.lock.Unlock(); *s.of = n }
func copies() {
	one := shared{&mu, &total}
	other := one
	both(func() { lookAndChange(one.Look, one.Change) }, func() { changeBetween(other.Change) })
}

// --- maps and slices
var names = map[string]int64{}

func has() int64 {
	mu.Lock()
	defer mu.Unlock()
	return names["ann"]
}
func insert(n int64) { mu.Lock(); defer mu.Unlock(); names["ann"] = n }
func insertOnce() {
	mu.Lock()
	defer mu.Unlock()
	if _, ok := names["ann"]; !ok {
		names["ann"] = 1
	}
}

var array = make([]int64, 4)

func addTo(part []int64) {
	for i := range part {
		part[i]++
	}
}
func halves() {
	low, high := array[:2], array[2:]
	both(func() { addTo(low); mark(0); after(1); addTo(low); mark(2) }, func() { after(0); addTo(high); mark(1); after(2); addTo(high) })
}
func thirdLook() int64    { return array[2] }
func thirdChange(n int64) { array[2] = n }

// The first two have room for a third one, which is the third one of the array.
func appendToLow() { after(0); low := array[:2]; low = append(low, 9); mark(1); _ = low }
func appendShares() {
	both(func() { lookAndChange(thirdLook, thirdChange) }, appendToLow)
}

type settings struct{ host, port int64 }

var site settings

func setBoth()      { mu.Lock(); site.host, site.port = 1, 1; mu.Unlock() }
func setHost()      { mu.Lock(); site.host = 2; mu.Unlock() }
func setPort()      { mu.Lock(); site.port = 2; mu.Unlock() }
func setApart()     { setHost(); mark(0); after(1); setPort() }
func readSite()     { mu.Lock(); copied := site; mu.Unlock(); kept = copied }
func readBetween()  { after(0); readSite(); mark(1) }
func snapshot()     { oftenBoth(setBoth, readSite) }
func snapshotTorn() { both(setApart, readBetween) }

var kept settings

// Correct, but a block that looks before the other one's change and locks after it.
var isMade atomic.Bool

func makeOnce(pause func()) {
	if isMade.Load() {
		return
	}
	pause()
	mu.Lock()
	defer mu.Unlock()
	if !isMade.Load() {
		total = 1
		isMade.Store(true)
	}
}
func makeSlowly()    { makeOnce(func() { mark(0); after(1) }) }
func makeMeanwhile() { after(0); makeOnce(func() {}); mark(1) }

// --- timers
func stoppedTimer() {
	both(func() {
		timer := time.AfterFunc(time.Hour, func() { add(1) })
		add(1)
		timer.Stop()
	}, func() { add(1) })
}
func resetTimer() {
	fired := make(chan bool)
	timer := time.AfterFunc(time.Hour, func() { add(1); fired <- true })
	timer.Reset(time.Millisecond)
	add(1)
	<-fired
}

// --- requests
type request struct {
	n     int64
	reply chan int64
}

func ask(to chan<- request, n int64) int64 {
	it := request{n, make(chan int64)}
	to <- it
	return <-it.reply
}
func requestReply() {
	requests := make(chan request)
	go func() {
		state := int64(0)
		for it := range requests {
			state += it.n
			it.reply <- state
		}
	}()
	both(func() { ask(requests, 1); ask(requests, 2) }, func() { ask(requests, 3) })
	close(requests)
}
func fanOut() {
	start := make(chan struct{})
	var all sync.WaitGroup
	for i := 0; i < 3; i++ {
		all.Add(1)
		go func() { defer all.Done(); <-start; add(1) }()
	}
	total = 5
	close(start)
	all.Wait()
}

// --- more of the above
var mixed int64

func plainLook() int64      { return mixed }
func atomicChange(n int64)  { atomic.StoreInt64(&mixed, n) }
func quietly(f func())      { defer func() { _ = recover() }(); f() }
func panicsAgain()          { defer func() { panic(recover()) }(); risky() }
func panicsInDeferred()     { defer func() { panic("again") }(); panic("failed") }
func againLook() int64      { quietly(panicsAgain); return lockedLook() }
func inDeferredLook() int64 { was := lockedLook(); quietly(panicsInDeferred); return was }
func quitsInDeferred() {
	defer func() { add(1); runtime.Goexit() }()
	add(1)
	panic("failed")
}
func quitsOften() {
	var all sync.WaitGroup
	for i := 0; i < 4; i++ {
		all.Add(1)
		go func() { defer all.Done(); quitsInDeferred() }()
		all.Wait()
	}
}

var pair = map[int]*int64{1: new(int64), 2: new(int64)}

func iterate() {
	n := 0
	for _, it := range pair {
		mu.Lock()
		_ = *it
		mu.Unlock()
		if n++; n == 1 {
			mark(0)
			after(1)
		}
	}
}
func changePair() {
	after(0)
	for _, it := range pair {
		mu.Lock()
		*it = 7
		mu.Unlock()
	}
	mark(1)
}

func restOfClosed() {
	rest := make(chan int64, 4)
	go produceFour(rest)
	for n := range rest {
		add(n)
	}
}
func produceFour(to chan<- int64) {
	for n := int64(0); n < 4; n++ {
		to <- n
	}
	close(to)
}

var newest = make(chan int64, 1)

// Puts the newest value in the place of an older one. Another goroutine that puts too may come between the two.
func offer() {
	for {
		select {
		case newest <- 1:
			return
		default:
		}
		select {
		case <-newest:
		default:
		}
	}
}

func takeNewest() {
	select {
	case <-newest:
	default:
	}
}

var empty = make(chan struct{})

// The two meet, and only after that they go on by turns.
func sendsEmpty()    { total = 1; empty <- struct{}{}; after(1); flag.Load() }
func receivesEmpty() { <-empty; flag.Store(1); mark(1) }

type counters struct{ low, high atomic.Int32 }

var halfCounters counters

func lowTwice() {
	halfCounters.low.Add(1)
	mark(0)
	after(1)
	halfCounters.low.Add(1)
	mark(2)
}
func highTwice() { after(0); halfCounters.high.Add(1); mark(1); after(2); halfCounters.high.Add(1) }

func timerChannel() {
	timer := time.NewTimer(time.Millisecond)
	add(1)
	<-timer.C
	add(1)
	if timer.Reset(time.Hour) {
		os.Exit(9)
	}
	timer.Stop()
}

var key = make(chan bool, 1)

func keyed(f func())     { key <- true; f(); <-key }
func keyLook() (n int64) { keyed(func() { n = total }); return }
func keyChange(n int64)  { keyed(func() { total = n }) }

var one, other = make(chan int64, 2), make(chan int64, 2)

func sendToOne() {
	select {
	case one <- 1:
	case n := <-other:
		_ = n
	}
}
func receiveOfOne() {
	select {
	case <-other:
	case <-one:
	}
}

func closureSplits() {
	n := int64(0)
	splits(func() int64 { return n }, func(to int64) { n = to })()
}

var four, copied [4]int64

func copyArray() int64    { copied = four; return copied[2] }
func changeArray(n int64) { four[2] = n }
func copyArrayAndChange() { was := copyArray(); mark(0); after(1); four[2] = was + 1 }
func changeArrayBetween() { after(0); changeArray(7); mark(1) }
func arraySplits()        { both(copyArrayAndChange, changeArrayBetween) }

var structs = map[string]account2{}

type account2 struct{ money, limit int64 }

func structLook() int64    { mu.Lock(); defer mu.Unlock(); return structs["ann"].money }
func structChange(n int64) { mu.Lock(); defer mu.Unlock(); structs["ann"] = account2{money: n} }

var text = "0"

func textLook() int64    { mu.Lock(); defer mu.Unlock(); return int64(len(text)) }
func textChange(n int64) { mu.Lock(); defer mu.Unlock(); text = string(rune('0' + n)) }

func fieldSplits() {
	it := &account2{}
	at := &it.limit
	splits(func() int64 { return *at }, func(n int64) { it.limit = n })()
}

var words = map[string]func(){
	"try-gate": often(tryGate), "gate-splits": splits(gateLook, gateChange), "closed-cross": closedCross, "merge": merges,
	"timeout": timeout, "timeout-splits": splits(timeoutLook, lockedChange),
	"context-tree": contextTree, "context-follows": contextFollows, "context-follows-child": contextFollowsChild,
	"group": groups, "group-first": groupFirst, "group-splits": groupSplits,
	"broadcast": broadcast, "broadcast-splits": broadcastSplits,
	"load-or-store": func() { both(getOrMake, getOrMake) }, "load-and-delete": takeBoth, "map-increment": mapIncrement,
	"map-range-torn": rangeTorn, "map-range": ranges,
	"value-once": valueOnce, "value-twice": valueTwice,
	"pointer-swap": func() { both(swapOne, swapOne) }, "pointer-splits": pointerSplits,
	"try-writer": tryWriters, "try-reader": tryReaders,
	"try-writer-follows": follows(onlyTryWriter, onlyTryReader), "try-reader-follows": follows(onlyTryReader, onlyTryWriter),
	"once-panics": func() { both(failOnce, failOnce) }, "once-panics-follows": follows(failOnce, failOnce),
	"once-value": often(func() { get() }),
	"pool":       often(useBuffer), "rounds": rounds, "rounds-follow": roundsFollow,
	"workers": workers, "workers-splits": workersSplit, "pipeline": pipeline, "limited": often(limited), "ticks": ticks,
	"recovered": often(guarded), "recovered-splits": splits(recoveredLook, lockedChange), "recovered-twice": often(guarded),
	"goexit": goexits, "defers-in-loop": often(lockAll), "defers-in-loop-splits": func() { both(lookThenChange, func() { changeBetween(lockedChange) }) },
	"method-value": often(mine.Pay), "method-value-splits": splits(mine.Look, mine.Change),
	"method-expression-splits": splits(func() int64 { return (*account).Look(mine) }, func(n int64) { (*account).Change(mine, n) }),
	"generic":                  often(func() { boxed.Update(func(n int64) int64 { return n + 1 }) }), "generic-splits": splits(boxed.Get, boxed.Set),
	"embedded": often(func() { mine.Pay() }), "embedded-splits": splits(func() int64 { return mine.Look() }, func(n int64) { mine.Change(n) }),
	"map-insert": often(insertOnce), "map-insert-splits": splits(has, insert),
	"halves-of-array": halves, "append-shares": appendShares, "snapshot": snapshot, "snapshot-torn": snapshotTorn,
	"double-checked": func() { both(makeSlowly, makeMeanwhile) },
	"stopped-timer":  stoppedTimer, "reset-timer": resetTimer, "request-reply": requestReply, "fan-out-closed": fanOut,
	"cond-writer": waits(waitAsWriter, tellAsWriter), "cond-reader": waits(waitAsReader, tellAsWriter), "cond-own": waits(waitForOwn, tellOwn),
	"mixed-splits": splits(plainLook, atomicChange), "panics-again-splits": splits(againLook, lockedChange),
	"panics-in-deferred-splits": splits(inDeferredLook, lockedChange), "quits-in-deferred": quitsOften,
	"iterates-torn": func() { both(iterate, changePair) }, "rest-of-closed": restOfClosed, "full-default": func() { oftenBoth(offer, takeNewest) },
	"empty-unbuffered-follows": func() { both(sendsEmpty, receivesEmpty) },
	"own-halves":               func() { both(lowTwice, highTwice) }, "timer-channel": timerChannel,
	"mutex-of-channel": often(func() { keyed(func() { total++ }) }), "mutex-of-channel-splits": splits(keyLook, keyChange),
	"two-cases-follows": follows(sendToOne, receiveOfOne), "closure-splits": closureSplits, "array-copy-splits": arraySplits,
	"struct-in-map-splits": splits(structLook, structChange), "string-splits": splits(textLook, textChange),
	"pointer-to-field-splits": fieldSplits,
	"lock-copied-pointer":     copies, "interface-splits": throughInterface,
}

func main() {
	for n := range points {
		points[n] = meet.New()
	}
	run := words[os.Args[1]]
	if run == nil {
		os.Exit(2)
	}
	run()
}
