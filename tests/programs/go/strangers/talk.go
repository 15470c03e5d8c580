package main

import (
	"runtime"
	"strings"
	"sync"
	"sync/atomic"
)

// progress: each step counts itself, and tells the one that shows it, unless that one was told already. One more is chosen to greet.
// Atomic by parts: a send through a slot from which somebody has received begins another part.
type progress struct {
	done    atomic.Int64
	greeter atomic.Int64
	told    chan struct{}
	shown   atomic.Int64
}

func (p *progress) step() {
	p.done.Add(1)
	select {
	case p.told <- struct{}{}:
	default:
	}
}

func (p *progress) greets(who int64) bool { return p.greeter.CompareAndSwap(0, who) }

func (p *progress) show() int64 { return p.done.Load() }

func runProgress() {
	bar := &progress{told: make(chan struct{}, 1)}
	var steps, shows sync.WaitGroup
	shows.Add(1)
	go func() {
		defer shows.Done()
		for range bar.told {
			bar.show()
		}
	}()
	for who := int64(1); who <= 3; who++ {
		steps.Add(1)
		go func(who int64) {
			defer steps.Done()
			bar.greets(who)
			for i := 0; i < 20; i++ {
				bar.step()
				runtime.Gosched()
			}
		}(who)
	}
	steps.Wait()
	close(bar.told)
	shows.Wait()
	if bar.show() != 60 {
		panic("a step is lost")
	}
}

// matrix: each goroutine fills a row, waits for the others at a barrier, and adds up a column. One of them ends there by Goexit. Atomic,
// except that the wait at the barrier is not, as a whole.
type barrier struct {
	mutex   sync.Mutex
	all     *sync.Cond
	missing int
}

func newBarrier(of int) *barrier {
	made := &barrier{missing: of}
	made.all = sync.NewCond(&made.mutex)
	return made
}

func (b *barrier) await() {
	b.mutex.Lock()
	defer b.mutex.Unlock()
	b.missing--
	if b.missing == 0 {
		b.all.Broadcast()
	}
	for b.missing > 0 {
		b.all.Wait()
	}
}

type matrix [3][3]int

func (m *matrix) fill(row int) {
	for column := range m[row] {
		m[row][column] = row - column
	}
}

func (m *matrix) column(column int) (sum int) {
	for row := range m {
		sum += m[row][column]
	}
	if sum < 0 {
		runtime.Goexit()
	}
	return sum
}

func runMatrix() {
	var numbers matrix
	var sums [3]int
	var all sync.WaitGroup
	filled := newBarrier(3)
	for i := 0; i < 3; i++ {
		all.Add(1)
		go func(i int) {
			defer all.Done()
			numbers.fill(i)
			filled.await()
			sums[i] = numbers.column(i)
		}(i)
	}
	all.Wait()
	if sums != [3]int{3, 0, 0} {
		panic("wrong sums")
	}
}

// bus: publish copies the list of handlers under the lock for readers, and calls them without it. In between, another goroutine subscribes
// (so it comes later) and publishes an event of its own, which is seen earlier and ends this goroutine.
type handler func(event string)

type bus struct {
	mutex    sync.RWMutex
	handlers []handler
}

func (b *bus) subscribe(h handler) {
	b.mutex.Lock()
	defer b.mutex.Unlock()
	b.handlers = append(b.handlers, h)
}

func (b *bus) publish(event string) {
	b.mutex.RLock()
	handlers := append([]handler(nil), b.handlers...)
	b.mutex.RUnlock()
	for _, handle := range handlers {
		handle(event)
	}
}

type events struct {
	mutex sync.Mutex
	all   []string
}

func (e *events) add(event string) {
	if event == "open" {
		pause()
	}
	e.mutex.Lock()
	defer e.mutex.Unlock()
	e.all = append(e.all, event)
	if event == "end" {
		runtime.Goexit()
	}
}

func runBus() {
	var seen events
	var counted atomic.Int64
	city := &bus{}
	city.subscribe(seen.add)
	var all sync.WaitGroup
	all.Add(2)
	go func() { defer all.Done(); city.publish("open") }()
	go func() {
		defer all.Done()
		defer resume()
		awaitPause()
		city.subscribe(func(string) { counted.Add(1) })
		city.publish("end")
	}()
	all.Wait()
	if len(seen.all) != 2 || counted.Load() != 0 {
		panic("wrong events")
	}
}

// subject: all observers are told under the lock, so that each pair of changes reaches them in one order. A look at one of them meanwhile
// is atomic too.
type observer struct{ sum atomic.Int64 }

func (o *observer) change(by int64) {
	if o.sum.Add(by) == 1 {
		pause()
	}
}

func (o *observer) look() int64 { return o.sum.Load() }

type subject struct {
	mutex  sync.Mutex
	change []func(int64)
}

func (s *subject) attach(change func(int64)) {
	s.mutex.Lock()
	defer s.mutex.Unlock()
	s.change = append(s.change, change)
}

func (s *subject) notify(by int64) {
	s.mutex.Lock()
	defer s.mutex.Unlock()
	for _, change := range s.change {
		change(by)
	}
}

func runSubject() {
	observers := make([]observer, 2)
	price := &subject{}
	for i := range observers {
		price.attach(observers[i].change)
	}
	var all sync.WaitGroup
	all.Add(3)
	go func() { defer all.Done(); price.notify(1) }()
	go func() { defer all.Done(); awaitPause(); price.notify(10) }()
	go func() { defer all.Done(); awaitPause(); observers[0].look(); resume() }()
	all.Wait()
	if observers[1].look() != 11 {
		panic("wrong sum")
	}
}

// room: two say something to the same two members, who hear it in different orders. But no message takes the slot of another one, so the
// log has no order between them, and both are atomic.
type member struct {
	name  string
	inbox chan string
}

func (m *member) hear(text string) { m.inbox <- text }

type room struct {
	mutex   sync.Mutex
	members atomic.Value
}

func (r *room) join(m *member) {
	r.mutex.Lock()
	defer r.mutex.Unlock()
	old, _ := r.members.Load().([]*member)
	r.members.Store(append(old[:len(old):len(old)], m))
}

func (r *room) say(text string) {
	members, _ := r.members.Load().([]*member)
	for _, m := range members {
		hear := m.hear
		hear(text)
		pause()
	}
}

func runRoom() {
	kitchen := &room{}
	ann, bob := &member{"ann", make(chan string, 4)}, &member{"bob", make(chan string, 4)}
	kitchen.join(ann)
	kitchen.join(bob)
	var both sync.WaitGroup
	both.Add(2)
	go func() { defer both.Done(); kitchen.say("hello") }()
	go func() { defer both.Done(); awaitPause(); kitchen.say("good day"); resume() }()
	both.Wait()
	if <-ann.inbox != "hello" || <-bob.inbox != "good day" {
		panic("wrong order")
	}
}

// ring: the last lines of a log, whose places are used again under the lock. Atomic.
type ring struct {
	mutex sync.Mutex
	lines [4][]string
	next  int
}

func (r *ring) add(words ...string) {
	r.mutex.Lock()
	defer r.mutex.Unlock()
	at := r.next % len(r.lines)
	r.lines[at] = append(r.lines[at][:0], words...)
	r.next++
}

func (r *ring) tail(count int) (lines []string) {
	r.mutex.Lock()
	defer r.mutex.Unlock()
	for n := r.next - count; n < r.next; n++ {
		if n >= 0 {
			lines = append(lines, strings.Join(r.lines[n%len(r.lines)], " "))
		}
	}
	return lines
}

func runRing() {
	last := &ring{}
	var all sync.WaitGroup
	for _, who := range []string{"ann", "bob"} {
		all.Add(1)
		go func(who string) {
			defer all.Done()
			for i := 0; i < 20; i++ {
				last.add(who, "was", "here")
				runtime.Gosched()
				last.tail(3)
			}
		}(who)
	}
	all.Wait()
}
