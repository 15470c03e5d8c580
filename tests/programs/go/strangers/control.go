package main

import (
	"context"
	"errors"
	"runtime"
	"sync"
	"sync/atomic"
	"time"
)

// machine: a change of state and its record are made under the machine's own lock. Atomic.
var moves = map[string]map[string]string{
	"idle":    {"start": "running"},
	"running": {"pause": "waiting", "stop": "idle"},
	"waiting": {"start": "running", "stop": "idle"},
}

type machine struct {
	sync.Mutex
	state   string
	history []string
}

func (m *machine) fire(event string) bool {
	m.Lock()
	defer m.Unlock()
	next, ok := moves[m.state][event]
	if ok {
		m.history = append(m.history, m.state)
		m.state = next
	}
	return ok
}

func (m *machine) path() []string {
	m.Lock()
	defer m.Unlock()
	return append([]string{m.state}, m.history...)
}

func runMachine() {
	motor := &machine{state: "idle"}
	var all sync.WaitGroup
	for _, events := range [][]string{{"start", "stop"}, {"start", "pause"}} {
		all.Add(1)
		go func(events []string) {
			defer all.Done()
			for i := 0; i < 20; i++ {
				motor.fire(events[i%2])
				runtime.Gosched()
				motor.path()
			}
		}(events)
	}
	all.Wait()
}

// limiter: if the work panics, do gives back the token that it took, after somebody else has taken one.
type limiter struct {
	mutex  sync.Mutex
	tokens int
}

func (l *limiter) change(by int) bool {
	l.mutex.Lock()
	defer l.mutex.Unlock()
	if l.tokens+by < 0 {
		return false
	}
	l.tokens += by
	return true
}

func (l *limiter) do(work func()) (err error) {
	if !l.change(-1) {
		return errors.New("too many requests")
	}
	defer func() {
		if cause := recover(); cause != nil {
			l.change(1)
			err = cause.(error)
		}
	}()
	work()
	return nil
}

func runLimiter() {
	requests := &limiter{tokens: 2}
	var both sync.WaitGroup
	both.Add(2)
	go func() {
		defer both.Done()
		requests.do(func() { pause(); panic(errors.New("no answer")) })
	}()
	go func() { defer both.Done(); awaitPause(); requests.do(func() {}); resume() }()
	both.Wait()
	if requests.tokens != 1 {
		panic("a token is lost")
	}
}

// election: one CompareAndSwap decides, and the leader's term ends by a timer. Atomic.
type election struct {
	leader atomic.Int32
	vacant chan struct{}
}

func (e *election) campaign(who int32) bool { return e.leader.CompareAndSwap(0, who) }

func (e *election) rule(term time.Duration) { time.AfterFunc(term, e.resign) }

func (e *election) resign() {
	e.leader.Store(0)
	close(e.vacant)
}

func runElection() {
	city := &election{vacant: make(chan struct{})}
	var campaigns, all sync.WaitGroup
	campaigns.Add(3)
	all.Add(3)
	for who := int32(1); who <= 3; who++ {
		go func(who int32) {
			defer all.Done()
			won := city.campaign(who)
			campaigns.Done()
			campaigns.Wait()
			if won {
				city.rule(time.Millisecond)
			}
		}(who)
	}
	all.Wait()
	<-city.vacant
	if !city.campaign(4) {
		panic("nobody resigned")
	}
}

// client: submit tries again, and finds a server that somebody connected after the first try.
type client struct {
	sync.Mutex
	sent   []string
	server atomic.Pointer[string]
}

func (c *client) connect(server string) { c.server.Store(&server) }

func (c *client) record(text string) {
	c.Lock()
	defer c.Unlock()
	c.sent = append(c.sent, text)
}

func (c *client) submit(text string) error {
	for tries := 0; tries < 3; tries++ {
		if server := c.server.Load(); server != nil {
			c.record(text + " to " + *server)
			return nil
		}
		pause()
	}
	return errors.New("no server")
}

func runClient() {
	printer := &client{}
	var both sync.WaitGroup
	both.Add(2)
	go func() { defer both.Done(); printer.submit("a page") }()
	go func() { defer both.Done(); awaitPause(); printer.connect("laser"); resume() }()
	both.Wait()
	if len(printer.sent) != 1 {
		panic("nothing was sent")
	}
}

// breaker: call works on a copy of the state, and stores it after somebody else's call.
type health struct {
	calls, failures int
	isOpen          bool
}

type breaker struct {
	mutex sync.Mutex
	now   health
}

func (b *breaker) health() health {
	b.mutex.Lock()
	defer b.mutex.Unlock()
	return b.now
}

func (b *breaker) setHealth(h health) {
	b.mutex.Lock()
	defer b.mutex.Unlock()
	b.now = h
}

func (b *breaker) call(f func() error) error {
	seen := b.health()
	if seen.isOpen {
		return errors.New("the breaker is open")
	}
	err := f()
	seen.calls++
	if err != nil {
		seen.failures++
		seen.isOpen = seen.failures >= 2
	}
	b.setHealth(seen)
	return err
}

func runBreaker() {
	service := &breaker{}
	fails := func() error { pause(); return errors.New("no answer") }
	var both sync.WaitGroup
	both.Add(2)
	go func() { defer both.Done(); service.call(fails) }()
	go func() { defer both.Done(); awaitPause(); service.call(fails); resume() }()
	both.Wait()
	if service.now.failures != 1 {
		panic("no failure was lost")
	}
}

// lazy: the value is made under the lock. The first try fails, and its goroutine ends in the midst of get. Atomic.
type lazy[T any] struct {
	mutex  sync.Mutex
	isMade bool
	value  T
	build  func(context.Context) (T, error)
}

func (l *lazy[T]) get() T {
	l.mutex.Lock()
	defer l.mutex.Unlock()
	if l.isMade {
		return l.value
	}
	ctx, cancel := context.WithTimeout(context.Background(), time.Minute)
	defer cancel()
	value, err := l.build(ctx)
	if err != nil {
		runtime.Goexit()
	}
	l.value, l.isMade = value, true
	return value
}

func runLazy() {
	tries := 0
	table := &lazy[[]int]{build: func(ctx context.Context) ([]int, error) {
		if tries++; tries == 1 {
			return nil, errors.New("not yet")
		}
		return []int{1, 4, 9}, ctx.Err()
	}}
	var all sync.WaitGroup
	for i := 0; i < 3; i++ {
		all.Add(1)
		go func() {
			defer all.Done()
			for n := 0; n < 5; n++ {
				_ = table.get()[n%3]
			}
		}()
	}
	all.Wait()
	if tries != 2 {
		panic("tried too often")
	}
}

// numbers: next gets the last number, and stores its own one in a deferred function, after somebody else has done both.
type numbers[N ~int] struct {
	once  sync.Once
	mutex sync.Mutex
	last  N
}

func (n *numbers[N]) get() N {
	n.mutex.Lock()
	defer n.mutex.Unlock()
	return n.last
}

func (n *numbers[N]) set(last N) {
	n.mutex.Lock()
	defer n.mutex.Unlock()
	n.last = last
}

func (n *numbers[N]) next() (made N) {
	n.once.Do(func() { n.set(100) })
	defer func() { n.set(made) }()
	made = n.get() + 1
	pause()
	return made
}

type invoice int

func runNumbers() {
	invoices := &numbers[invoice]{}
	var both sync.WaitGroup
	both.Add(2)
	go func() { defer both.Done(); invoices.next() }()
	go func() { defer both.Done(); awaitPause(); invoices.next(); resume() }()
	both.Wait()
	if invoices.last != 101 {
		panic("the numbers differ")
	}
}

// reminder: remind sets a timer, and looks under the lock for what its function has written.
type bell interface{ ring(name string) }

type clock struct {
	mutex sync.Mutex
	rung  []string
}

func (c *clock) ring(name string) {
	c.mutex.Lock()
	defer c.mutex.Unlock()
	c.rung = append(c.rung, name)
}

func (c *clock) rings() int {
	c.mutex.Lock()
	defer c.mutex.Unlock()
	return len(c.rung)
}

func (c *clock) remind(who bell, name string) bool {
	time.AfterFunc(time.Millisecond, func() {
		awaitPause()
		who.ring(name)
		resume()
	})
	pause()
	return c.rings() == 1
}

func runReminder() {
	wall := &clock{}
	done := make(chan bool)
	go func() { done <- wall.remind(wall, "tea") }()
	if !<-done {
		panic("the bell didn't ring")
	}
}
