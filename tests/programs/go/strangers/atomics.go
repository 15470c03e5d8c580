package main

import (
	"runtime"
	"sync"
	"sync/atomic"
)

// plates: push tries again, because somebody else has put a plate on the top. It reads the top before and after that.
type plate struct {
	below  *plate
	number int
}

type plates struct{ top atomic.Pointer[plate] }

func (p *plates) push(number int) {
	added := &plate{number: number}
	for {
		top := p.top.Load()
		added.below = top
		pause()
		if p.top.CompareAndSwap(top, added) {
			return
		}
	}
}

func runPlates() {
	pile := &plates{}
	var both sync.WaitGroup
	both.Add(2)
	go func() { defer both.Done(); pile.push(1) }()
	go func() { defer both.Done(); awaitPause(); pile.push(2); resume() }()
	both.Wait()
	if top := pile.top.Load(); top.number != 1 || top.below.number != 2 {
		panic("wrong order")
	}
}

// clockwork: read reads the version before and after the time, and tries again, because the clock was set meanwhile.
type clockwork struct {
	version        atomic.Uint32
	hours, minutes atomic.Int32
}

func (c *clockwork) read() (hours, minutes int32) {
	for {
		version := c.version.Load()
		hours = c.hours.Load()
		pause()
		minutes = c.minutes.Load()
		if version%2 == 0 && c.version.Load() == version {
			return hours, minutes
		}
	}
}

func (c *clockwork) set(hours, minutes int32) {
	c.version.Add(1)
	c.hours.Store(hours)
	c.minutes.Store(minutes)
	c.version.Add(1)
}

func runClockwork() {
	var tower clockwork
	var both sync.WaitGroup
	both.Add(2)
	go func() { defer both.Done(); tower.read() }()
	go func() { defer both.Done(); awaitPause(); tower.set(11, 59); resume() }()
	both.Wait()
}

// spin: add takes a lock made of a CompareAndSwap. The second one finds it taken, between the two changes of the lock by the first one.
type spin struct {
	isTaken atomic.Bool
	count   int
}

func (s *spin) add() {
	for !s.isTaken.CompareAndSwap(false, true) {
		resume()
		runtime.Gosched()
	}
	s.count++
	pause()
	s.isTaken.Store(false)
}

func runSpin() {
	wheel := &spin{}
	var both sync.WaitGroup
	both.Add(2)
	go func() { defer both.Done(); wheel.add() }()
	go func() { defer both.Done(); awaitPause(); wheel.add() }()
	both.Wait()
	if wheel.count != 2 {
		panic("a count is lost")
	}
}

// mirror: both sides are set one after the other, and somebody compares them in between.
type mirror struct{ left, right atomic.Int64 }

func (m *mirror) set(value int64) {
	m.left.Store(value)
	pause()
	m.right.Store(value)
}

func (m *mirror) isEven() bool { return m.left.Load() == m.right.Load() }

func runMirror() {
	glass := &mirror{}
	isEven := true
	var both sync.WaitGroup
	both.Add(2)
	go func() { defer both.Done(); glass.set(3) }()
	go func() { defer both.Done(); awaitPause(); isEven = glass.isEven(); resume() }()
	both.Wait()
	if isEven {
		panic("the sides were even")
	}
}

// rules: allows looks at one set of rules throughout, although there is a newer one meanwhile. Atomic.
type rules struct{ limit, burst int }

type ruled struct{ now atomic.Pointer[rules] }

func (r *ruled) allows(count int) bool {
	now := r.now.Load()
	isAllowed := count <= now.limit
	pause()
	return isAllowed || count <= now.burst
}

func (r *ruled) raise(by int) {
	next := *r.now.Load()
	next.limit += by
	next.burst += by
	r.now.Store(&next)
}

func runRules() {
	road := &ruled{}
	road.now.Store(&rules{50, 60})
	isAllowed := true
	var both sync.WaitGroup
	both.Add(2)
	go func() { defer both.Done(); isAllowed = road.allows(65) }()
	go func() { defer both.Done(); awaitPause(); road.raise(10); resume() }()
	both.Wait()
	if isAllowed {
		panic("the newer rules were used")
	}
}

// lamp: toggle reads and writes the flag, and two of them overlap, so the lamp is on.
type lamp struct{ isOn atomic.Bool }

func (l *lamp) toggle() {
	was := l.isOn.Load()
	pause()
	l.isOn.Store(!was)
}

func runLamp() {
	hallway := &lamp{}
	var both sync.WaitGroup
	both.Add(2)
	go func() { defer both.Done(); hallway.toggle() }()
	go func() { defer both.Done(); awaitPause(); hallway.toggle(); resume() }()
	both.Wait()
	if !hallway.isOn.Load() {
		panic("the lamp is off")
	}
}

// ids: id looks for a name, and makes a number if there is none. Another one makes it first. That the name was missing isn't logged, so
// there is no order but the one from the other's store.
type registry struct {
	names sync.Map
	last  atomic.Int64
}

func (r *registry) id(name string) any {
	if found, ok := r.names.Load(name); ok {
		return found
	}
	pause()
	made, _ := r.names.LoadOrStore(name, r.last.Add(1))
	return made
}

func runIds() {
	towns := &registry{}
	var both sync.WaitGroup
	both.Add(2)
	go func() { defer both.Done(); towns.id("Rome") }()
	go func() { defer both.Done(); awaitPause(); towns.id("Rome"); resume() }()
	both.Wait()
	if towns.last.Load() != 2 {
		panic("one number was made")
	}
}

// nicknames: lengthen loads and stores the name of a key that was stored before, and so does another one in between.
type nicknames struct{ all sync.Map }

func (n *nicknames) lengthen(name string) {
	old, _ := n.all.Load(name)
	pause()
	n.all.Store(name, old.(string)+"y")
}

func runNicknames() {
	family := &nicknames{}
	family.all.Store("William", "Bill")
	var both sync.WaitGroup
	both.Add(2)
	go func() { defer both.Done(); family.lengthen("William") }()
	go func() { defer both.Done(); awaitPause(); family.lengthen("William"); resume() }()
	both.Wait()
	if name, _ := family.all.Load("William"); name != "Billy" {
		panic("no change was lost")
	}
}

// leases: take makes a lease if none is free, and none was made. Two of them find that none was made.
type leases struct {
	free chan int
	made atomic.Int64
}

func (l *leases) take() int {
	select {
	case lease := <-l.free:
		return lease
	default:
	}
	if l.made.Load() > 0 {
		return 0
	}
	pause()
	return int(l.made.Add(1))
}

func (l *leases) giveBack(lease int) {
	select {
	case l.free <- lease:
	default:
	}
}

func runLeases() {
	flat := &leases{free: make(chan int, 2)}
	var both sync.WaitGroup
	both.Add(2)
	go func() { defer both.Done(); flat.giveBack(flat.take()) }()
	go func() { defer both.Done(); awaitPause(); flat.giveBack(flat.take()); resume() }()
	both.Wait()
	if <-flat.free+<-flat.free != 3 {
		panic("one lease was made")
	}
}
