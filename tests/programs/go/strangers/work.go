package main

import (
	"context"
	"errors"
	"runtime"
	"sync"
	"sync/atomic"
	"time"
)

// queue: takeAll asks for the size and then takes, under two locks, while somebody else takes too.
type job struct{ name string }

type queue struct {
	mutex sync.Mutex
	some  *sync.Cond
	jobs  []*job
}

var freeJobs = sync.Pool{New: func() any { return new(job) }}

func newQueue() *queue {
	made := &queue{}
	made.some = sync.NewCond(&made.mutex)
	return made
}

func (q *queue) put(name string) {
	added := freeJobs.Get().(*job)
	added.name = name
	q.mutex.Lock()
	defer q.mutex.Unlock()
	q.jobs = append(q.jobs, added)
	q.some.Signal()
}

func (q *queue) take() *job {
	q.mutex.Lock()
	defer q.mutex.Unlock()
	for len(q.jobs) == 0 {
		q.some.Wait()
	}
	taken := q.jobs[0]
	q.jobs = q.jobs[1:]
	return taken
}

func (q *queue) size() int {
	q.mutex.Lock()
	defer q.mutex.Unlock()
	return len(q.jobs)
}

func (q *queue) takeAll() (all []*job) {
	for q.size() > 0 {
		pause()
		all = append(all, q.take())
	}
	return all
}

func runQueue() {
	jobs := newQueue()
	jobs.put("wash")
	jobs.put("dry")
	var both sync.WaitGroup
	both.Add(2)
	go func() { defer both.Done(); jobs.takeAll() }()
	go func() { defer both.Done(); awaitPause(); freeJobs.Put(jobs.take()); resume() }()
	both.Wait()
}

// batch: two jobs at a time. Atomic: each job changes the sum once, under the lock.
type batch struct {
	mutex sync.Mutex
	sum   int
}

func (b *batch) square(n int) int {
	squared := n * n
	b.mutex.Lock()
	b.sum += squared
	b.mutex.Unlock()
	return squared
}

func runBatch() {
	numbers := []int{1, 2, 3, 4, 5, 6}
	slots := make(chan struct{}, 2)
	results := make(chan int, len(numbers))
	work := &batch{}
	var running sync.WaitGroup
	running.Add(len(numbers))
	for _, n := range numbers {
		slots <- struct{}{}
		go func(n int) {
			defer running.Done()
			defer func() { <-slots }()
			results <- work.square(n)
		}(n)
	}
	sum := 0
	for range numbers {
		sum += <-results
	}
	running.Wait()
	if sum != 91 || work.sum != 91 {
		panic("wrong sum")
	}
}

// stages: pass counts what it takes and what it passes on or drops. lost subtracts the counts, which it reads under two locks.
type stage struct {
	mutex                  sync.Mutex
	taken, passed, dropped int
	out                    chan string
}

func (s *stage) count(counted *int) {
	s.mutex.Lock()
	defer s.mutex.Unlock()
	*counted++
}

func (s *stage) read(counted *int) int {
	s.mutex.Lock()
	defer s.mutex.Unlock()
	return *counted
}

func (s *stage) pass(line string) {
	s.count(&s.taken)
	select {
	case s.out <- line:
		s.count(&s.passed)
	default:
		s.count(&s.dropped)
	}
}

func (s *stage) lost() int {
	taken := s.read(&s.taken)
	pause()
	return taken - s.read(&s.passed)
}

func (s *stage) run(ctx context.Context, in <-chan string) {
	for {
		select {
		case <-ctx.Done():
			return
		case line, ok := <-in:
			if !ok {
				in = nil
				resume()
				continue
			}
			s.pass(line)
		}
	}
}

func runStages() {
	ctx, cancel := context.WithCancel(context.Background())
	first := &stage{out: make(chan string, 1)}
	lines := make(chan string)
	var looked, ran sync.WaitGroup
	looked.Add(1)
	ran.Add(1)
	go func() { defer looked.Done(); first.lost() }()
	go func() { defer ran.Done(); first.run(ctx, lines) }()
	awaitPause()
	lines <- "one"
	lines <- "two"
	close(lines)
	looked.Wait()
	cancel()
	ran.Wait()
}

// service: stop lets the workers finish what was sent, and each ends itself by Goexit. Atomic.
type service[T any] struct {
	jobs    chan T
	quit    chan struct{}
	workers sync.WaitGroup

	mutex sync.Mutex
	done  []T
}

func newService[T any](workers int) *service[T] {
	made := &service[T]{jobs: make(chan T, 8), quit: make(chan struct{})}
	made.workers.Add(workers)
	for i := 0; i < workers; i++ {
		go made.work()
	}
	return made
}

func (s *service[T]) work() {
	defer s.workers.Done()
	for {
		select {
		case next := <-s.jobs:
			s.handle(next)
		case <-s.quit:
			s.finish()
		}
	}
}

func (s *service[T]) finish() {
	for {
		select {
		case next := <-s.jobs:
			s.handle(next)
		default:
			runtime.Goexit()
		}
	}
}

func (s *service[T]) handle(next T) {
	s.mutex.Lock()
	defer s.mutex.Unlock()
	s.done = append(s.done, next)
}

func (s *service[T]) stop() []T {
	close(s.quit)
	s.workers.Wait()
	return s.done
}

func runService() {
	mail := newService[string](2)
	for _, letter := range []string{"a", "b", "c", "d", "e"} {
		mail.jobs <- letter
	}
	if len(mail.stop()) != 5 {
		panic("a letter is lost")
	}
}

// connections: get looks whether one more may be opened, opens it, and counts it later.
var errFull = errors.New("too many connections")

type connection struct{ number int64 }

type connections struct {
	mutex       sync.Mutex
	open, limit int
	dial        func() *connection
}

func (c *connections) isFull() bool {
	c.mutex.Lock()
	defer c.mutex.Unlock()
	return c.open == c.limit
}

func (c *connections) get(ctx context.Context) (*connection, error) {
	if err := ctx.Err(); err != nil {
		return nil, err
	}
	if c.isFull() {
		return nil, errFull
	}
	made := c.dial()
	c.mutex.Lock()
	defer c.mutex.Unlock()
	c.open++
	return made, nil
}

func runConnections() {
	var numbers atomic.Int64
	ctx, cancel := context.WithCancel(context.Background())
	pool := &connections{limit: 1, dial: func() *connection {
		pause()
		return &connection{numbers.Add(1)}
	}}
	var both sync.WaitGroup
	both.Add(2)
	go func() { defer both.Done(); pool.get(ctx) }()
	go func() { defer both.Done(); awaitPause(); pool.get(ctx); resume() }()
	both.Wait()
	cancel()
	if _, err := pool.get(ctx); err == nil || pool.open != 2 {
		panic("the limit was kept")
	}
}

// statistics: each worker asks between two numbers whether the time is up, and adds its sum under the lock. Atomic.
type group struct {
	running sync.WaitGroup
	once    sync.Once
	err     error
}

func (g *group) start(work func() error) {
	g.running.Add(1)
	go func() {
		defer g.running.Done()
		if err := work(); err != nil {
			g.once.Do(func() { g.err = err })
		}
	}()
}

func (g *group) wait() error {
	g.running.Wait()
	return g.err
}

type statistics struct {
	mutex      sync.Mutex
	count, sum int
}

func (s *statistics) add(ctx context.Context, numbers []int) error {
	sum := 0
	for _, n := range numbers {
		select {
		case <-ctx.Done():
			return ctx.Err()
		default:
			sum += n
		}
	}
	pause()
	s.mutex.Lock()
	defer s.mutex.Unlock()
	s.count += len(numbers)
	s.sum += sum
	return nil
}

func runStatistics() {
	numbers := []int{3, 1, 4, 1, 5, 9, 2, 6}
	all := &statistics{}
	workers := &group{}
	ctx, cancel := context.WithTimeout(context.Background(), time.Minute)
	defer cancel()
	workers.start(func() error { return all.add(ctx, numbers[:4]) })
	workers.start(func() error {
		awaitPause()
		defer resume()
		return all.add(ctx, numbers[4:])
	})
	if workers.wait() != nil || all.sum != 31 {
		panic("wrong sum")
	}
}
