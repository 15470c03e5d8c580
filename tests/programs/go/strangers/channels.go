package main

import (
	"bufio"
	"container/heap"
	"container/list"
	"context"
	"io"
	"runtime"
	"sync"
	"sync/atomic"
	"time"
)

// desk: each question brings the channel for its answer. ask waits for the answer, so as a whole it isn't atomic, but its parts are.
type question struct {
	text   string
	answer chan string
}

type desk struct {
	questions chan question
	asked     int
}

func (d *desk) serve() {
	for q := range d.questions {
		d.handle(q)
	}
}

func (d *desk) handle(q question) {
	d.asked++
	q.answer <- "about " + q.text
}

func (d *desk) ask(text string) string {
	asked := question{text, make(chan string)}
	d.questions <- asked
	return <-asked.answer
}

func runDesk() {
	help := &desk{questions: make(chan question)}
	closed := make(chan struct{})
	go func() { defer close(closed); help.serve() }()
	var both sync.WaitGroup
	for _, text := range []string{"trains", "rooms"} {
		both.Add(1)
		go func(text string) {
			defer both.Done()
			for i := 0; i < 5; i++ {
				help.ask(text)
			}
		}(text)
	}
	both.Wait()
	close(help.questions)
	<-closed
	if help.asked != 10 {
		panic("a question is lost")
	}
}

// funnel: many count and send numbers into one channel. Atomic by parts: a send through a slot from which somebody has received begins
// another part.
type funnel struct {
	sent atomic.Int64
	out  chan int
}

func (f *funnel) emit(number int) {
	f.sent.Add(1)
	f.out <- number
}

func runFunnel() {
	kitchen := &funnel{out: make(chan int, 2)}
	var producers sync.WaitGroup
	producers.Add(3)
	for i := 0; i < 3; i++ {
		go func(i int) {
			defer producers.Done()
			for n := 0; n < 10; n++ {
				kitchen.emit(10*i + n)
			}
		}(i)
	}
	go func() { producers.Wait(); close(kitchen.out) }()
	sum := 0
	for number := range kitchen.out {
		sum += number
	}
	if sum != 29*15 || kitchen.sent.Load() != 30 {
		panic("a number is lost")
	}
}

// debounce: each press sets the timer anew, and when it goes off the keys are flushed. All is under one lock. Atomic.
type debounce struct {
	mutex   sync.Mutex
	pending []string
	flushed int
	timer   *time.Timer
	done    chan struct{}
}

func (d *debounce) press(key string) {
	d.mutex.Lock()
	defer d.mutex.Unlock()
	d.pending = append(d.pending, key)
	d.timer.Reset(time.Millisecond)
}

func (d *debounce) flush() {
	d.mutex.Lock()
	defer d.mutex.Unlock()
	if len(d.pending) == 0 {
		return
	}
	d.flushed += len(d.pending)
	d.pending = nil
	if d.flushed == 6 {
		close(d.done)
	}
}

func runDebounce() {
	keys := &debounce{done: make(chan struct{})}
	keys.timer = time.AfterFunc(time.Hour, keys.flush)
	var all sync.WaitGroup
	for _, key := range []string{"a", "b", "c"} {
		all.Add(1)
		go func(key string) {
			defer all.Done()
			keys.press(key)
			keys.press(key + key)
		}(key)
	}
	all.Wait()
	<-keys.done
}

// download: fetch has got a part when the context is cancelled by one that has looked at it. fetch waits for that, so its parts are atomic,
// but not the whole.
type download struct{ bytes atomic.Int64 }

func (d *download) fetch(ctx context.Context) error {
	done := ctx.Done()
	d.bytes.Store(100)
	pause()
	<-done
	d.bytes.Store(0)
	return ctx.Err()
}

func (d *download) giveUp(cancel context.CancelFunc) {
	if d.bytes.Load() < 1000 {
		cancel()
	}
}

func runDownload() {
	film := &download{}
	ctx, cancel := context.WithCancel(context.Background())
	var both sync.WaitGroup
	both.Add(2)
	go func() { defer both.Done(); film.fetch(ctx) }()
	go func() { defer both.Done(); awaitPause(); film.giveUp(cancel); resume() }()
	both.Wait()
	if ctx.Err() == nil || film.bytes.Load() != 0 {
		panic("the download goes on")
	}
}

// tasks: a heap of the library under the lock that the tasks embed. Atomic.
type task struct {
	name    string
	urgency int
}

type taskHeap []task

func (h taskHeap) Len() int           { return len(h) }
func (h taskHeap) Less(i, j int) bool { return h[i].urgency > h[j].urgency }
func (h taskHeap) Swap(i, j int)      { h[i], h[j] = h[j], h[i] }
func (h *taskHeap) Push(added any)    { *h = append(*h, added.(task)) }

func (h *taskHeap) Pop() any {
	last := len(*h) - 1
	popped := (*h)[last]
	*h = (*h)[:last]
	return popped
}

type tasks struct {
	sync.Mutex
	waiting taskHeap
}

func (t *tasks) add(name string, urgency int) {
	t.Lock()
	defer t.Unlock()
	heap.Push(&t.waiting, task{name, urgency})
}

func (t *tasks) next() (task, bool) {
	t.Lock()
	defer t.Unlock()
	if t.waiting.Len() == 0 {
		return task{}, false
	}
	return heap.Pop(&t.waiting).(task), true
}

func runTasks() {
	today := &tasks{}
	var all sync.WaitGroup
	all.Add(3)
	for i := 0; i < 3; i++ {
		go func(i int) {
			defer all.Done()
			for n := 0; n < 8; n++ {
				today.add("write", (5*n+i)%7)
				runtime.Gosched()
				today.next()
			}
		}(i)
	}
	all.Wait()
	if _, ok := today.next(); ok {
		panic("a task is left")
	}
}

// agenda: postpone looks at the first item of a list, and moves it to the back, after somebody else has done so.
type agenda struct {
	mutex sync.Mutex
	items *list.List
}

func (a *agenda) first() *list.Element {
	a.mutex.Lock()
	defer a.mutex.Unlock()
	return a.items.Front()
}

func (a *agenda) postpone() {
	first := a.first()
	pause()
	a.mutex.Lock()
	defer a.mutex.Unlock()
	a.items.MoveToBack(first)
}

func runAgenda() {
	monday := &agenda{items: list.New()}
	for _, item := range []string{"money", "rooms", "holidays"} {
		monday.items.PushBack(item)
	}
	var both sync.WaitGroup
	both.Add(2)
	go func() { defer both.Done(); monday.postpone() }()
	go func() { defer both.Done(); awaitPause(); monday.postpone(); resume() }()
	both.Wait()
	if monday.first().Value != "rooms" {
		panic("two items were postponed")
	}
}

// rounds: one WaitGroup for each round of a game. play begins another part where it waits. Atomic.
type rounds struct {
	playing sync.WaitGroup
	points  atomic.Int64
}

func (r *rounds) score() { r.points.Add(1) }

func (r *rounds) play(players int) int64 {
	r.playing.Add(players)
	for i := 0; i < players; i++ {
		go func() {
			defer r.playing.Done()
			r.score()
		}()
	}
	r.playing.Wait()
	return r.points.Load()
}

func runRounds() {
	game := &rounds{}
	for round := int64(1); round <= 3; round++ {
		if game.play(4) != 4*round {
			panic("a point is lost")
		}
	}
}

// gate: some wait until the gate is closed as a channel, and have a minute. The fee was set before. Atomic.
type gate struct {
	open   chan struct{}
	passed atomic.Int64
	fee    int
}

func (g *gate) pass() int {
	select {
	case <-g.open:
		g.passed.Add(1)
		return g.fee
	case <-time.After(time.Minute):
		return 0
	}
}

func (g *gate) raise(fee int) {
	g.fee = fee
	close(g.open)
}

func runGate() {
	park := &gate{open: make(chan struct{})}
	var all sync.WaitGroup
	all.Add(4)
	for i := 0; i < 3; i++ {
		go func() { defer all.Done(); park.pass() }()
	}
	go func() { defer all.Done(); park.raise(5) }()
	all.Wait()
	if park.passed.Load() != 3 {
		panic("somebody didn't pass")
	}
}

// radio: two speak into a pipe of package io, and one hears their lines. A write of the pipe meets the reader, so it begins another part.
// Atomic by parts.
type radio struct {
	said atomic.Int64
	out  *io.PipeWriter
}

func (r *radio) say(text string) {
	r.said.Add(1)
	io.WriteString(r.out, text+"\n")
}

func runRadio() {
	in, out := io.Pipe()
	police := &radio{out: out}
	heard := make(chan int)
	go func() {
		lines := 0
		for scanner := bufio.NewScanner(in); scanner.Scan(); {
			lines++
		}
		heard <- lines
	}()
	var both sync.WaitGroup
	both.Add(2)
	go func() { defer both.Done(); police.say("hello"); police.say("over") }()
	go func() { defer both.Done(); police.say("who is there?"); police.say("over") }()
	both.Wait()
	out.Close()
	if <-heard != 4 {
		panic("a line is lost")
	}
}

// turnstile: a channel with one slot is the lock. Atomic, as a whole too.
type turnstile struct {
	lock            chan struct{}
	inside, entered int
}

func (t *turnstile) enter() {
	t.lock <- struct{}{}
	t.inside++
	runtime.Gosched()
	t.entered += t.inside
	t.inside--
	<-t.lock
}

func runTurnstile() {
	pool := &turnstile{lock: make(chan struct{}, 1)}
	var all sync.WaitGroup
	all.Add(3)
	for i := 0; i < 3; i++ {
		go func() {
			defer all.Done()
			for n := 0; n < 10; n++ {
				pool.enter()
			}
		}()
	}
	all.Wait()
	if pool.entered != 30 {
		panic("two were inside")
	}
}
