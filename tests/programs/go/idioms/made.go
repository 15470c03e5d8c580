// Further programs of this package, by the functions that Go makes for statements and for values, and by locks that are overwritten.
package main

import (
	"runtime"
	"sync"
	"time"

	"programs/meet"
)

// A defer statement that calls the library, with a function of the program.
var (
	marks  sync.Map
	waited bool
)

func slowly(key, value any) bool {
	if !waited {
		waited = true
		mark(0)
		after(1)
	}
	return true
}
func storeMarks() { after(0); marks.Store(1, 1); marks.Store(2, 1); mark(1) }
func rangeLater() {
	marks.Store(1, 0)
	marks.Store(2, 0)
	end := make(chan int)
	go func() {
		defer close(end)
		defer marks.Range(slowly)
	}()
	storeMarks()
	<-end
}

// A defer statement that calls a method, which is left out.
type server struct{ all sync.WaitGroup }

func (s *server) serve() {
	seen := lockedLook()
	mark(0)
	after(1)
	lockedChange(seen + 1)
}
func serveLater(s *server) { defer s.all.Done(); defer s.serve() }
func servesLater() {
	s := new(server)
	s.all.Add(2)
	go serveLater(s)
	go changeAndLeave(&s.all)
	s.all.Wait()
}

// In one line, what a goroutine defers is no more its start than elsewhere.
func servesInOneLine() {
	s := new(server)
	s.all.Add(2)
	go func() { defer s.serve(); defer s.all.Done() }()
	go changeAndLeave(&s.all)
	s.all.Wait()
	alone()
}

// Waits until no other goroutine is there.
func alone() {
	for runtime.NumGoroutine() > 1 {
		runtime.Gosched()
	}
}

// A goroutine starts with a method of a generic type, or calls one, by its value.
type ring[T any] struct {
	is  T
	all sync.WaitGroup
}

func (r *ring[T]) turn() {
	seen := lockedLook()
	mark(0)
	after(1)
	lockedChange(seen + 1)
	r.all.Done()
}
func startTurn(r *ring[int]) {
	turn := r.turn
	go turn()
}
func startExpression(r *ring[int]) { go (*ring[int]).turn(r) }
func startByTimer(r *ring[int])    { time.AfterFunc(0, r.turn) }
func startElsewhere(r *ring[int])  { meet.Start(r.turn) }
func startWorker(r *ring[int])     { jobs := make(chan func(), 1); jobs <- r.turn; go runJob(jobs) }
func runJob(jobs chan func())      { (<-jobs)() }
func ringBy(start func(r *ring[int])) func() {
	return func() {
		r := new(ring[int])
		r.all.Add(2)
		start(r)
		go changeAndLeave(&r.all)
		r.all.Wait()
	}
}

// A struct is set to zero, or another one is copied over it, while its lock is held: so the lock is free.
type state struct {
	mu sync.Mutex
	n  int64
}

var (
	present, past state
	states        [4]state
)

func zero(s *state)             { s.mu.Lock(); *s = state{} }
func zeroLock(s *state)         { s.mu.Lock(); s.mu = sync.Mutex{} }
func overwrite(s *state)        { s.mu.Lock(); *s = past }
func shift(s *state)            { s.mu.Lock(); copy(states[:], states[1:]) }
func zeroAndLock(s *state)      { s.mu.Lock(); *s = state{}; s.mu.Lock(); s.n++; s.mu.Unlock() }
func (s *state) look() int64    { s.mu.Lock(); defer s.mu.Unlock(); return s.n }
func (s *state) change(n int64) { s.mu.Lock(); defer s.mu.Unlock(); s.n = n }
func (s *state) add()           { s.mu.Lock(); defer s.mu.Unlock(); s.n++ }
func (s *state) locks()         { s.mu.Lock(); s.mu.Unlock() }
func freed(by func(*state), s *state, f func()) func() {
	return func() { both(func() { by(s); mark(7) }, func() { points[7].Await(); s.add() }); by(s); f() }
}

func init() {
	for word, run := range map[string]func(){
		"range-later":         rangeLater,
		"serves-later":        servesLater,
		"serves-in-one-line":  servesInOneLine,
		"generic-start":       ringBy(startTurn),
		"generic-expression":  ringBy(startExpression),
		"generic-timer":       ringBy(startByTimer),
		"generic-elsewhere":   ringBy(startElsewhere),
		"generic-worker":      ringBy(startWorker),
		"lock-zeroed":         freed(zero, &present, often(present.add)),
		"lock-zeroed-alone":   freed(zeroLock, &present, often(present.add)),
		"lock-overwritten":    freed(overwrite, &present, often(present.add)),
		"lock-shifted":        freed(shift, &states[0], often(states[0].add)),
		"lock-zeroed-twice":   freed(zeroAndLock, &present, often(present.add)),
		"lock-zeroed-splits":  freed(zero, &present, splits(present.look, present.change)),
		"lock-zeroed-follows": freed(zero, &present, follows(present.locks, present.locks)),
	} {
		words[word] = run
	}
}
