package main

import (
	"sync"
	"sync/atomic"
	"time"
)

// counter: the semaphore lets two in, and the second one's numbers are lost.
type tally struct{ hits, bytes int }

type counter struct {
	slots chan struct{}
	now   atomic.Pointer[tally]
}

func (c *counter) add(bytes int) {
	c.slots <- struct{}{}
	defer func() { <-c.slots }()
	old := c.now.Load()
	pause()
	c.now.Store(&tally{old.hits + 1, old.bytes + bytes})
}

func runCounter() {
	hits := &counter{slots: make(chan struct{}, 2)}
	hits.now.Store(&tally{})
	var both sync.WaitGroup
	both.Add(2)
	go func() { defer both.Done(); hits.add(10) }()
	go func() { defer both.Done(); awaitPause(); hits.add(20); resume() }()
	both.Wait()
	if hits.now.Load().hits != 1 {
		panic("no hit was lost")
	}
}

// wallets: the money lies in a channel, and who takes it out puts it back. withdraw does so twice. By default each receive splits its
// block, and the parts are atomic.
type wallet struct{ money chan int }

type bank struct {
	mutex   sync.RWMutex
	wallets map[string]*wallet
}

func (b *bank) open(name string, money int) {
	b.mutex.Lock()
	defer b.mutex.Unlock()
	b.wallets[name] = &wallet{make(chan int, 1)}
	b.wallets[name].money <- money
}

func (b *bank) find(name string) *wallet {
	b.mutex.RLock()
	defer b.mutex.RUnlock()
	return b.wallets[name]
}

func (w *wallet) balance() int {
	money := <-w.money
	w.money <- money
	return money
}

func (w *wallet) withdraw(amount int) bool {
	if w.balance() < amount {
		return false
	}
	pause()
	w.money <- <-w.money - amount
	return true
}

func runWallets() {
	ours := &bank{wallets: map[string]*wallet{}}
	ours.open("ann", 100)
	var both sync.WaitGroup
	both.Add(2)
	go func() { defer both.Done(); ours.find("ann").withdraw(70) }()
	go func() { defer both.Done(); awaitPause(); ours.find("ann").withdraw(60); resume() }()
	both.Wait()
	if ours.find("ann").balance() != -30 {
		panic("the wallet isn't overdrawn")
	}
}

// hall: a seat is looked at under the lock for readers, and booked under the lock for writers.
type hall struct {
	mutex sync.RWMutex
	seats [10]string
}

func (h *hall) isFree(seat int) bool {
	h.mutex.RLock()
	defer h.mutex.RUnlock()
	return h.seats[seat] == ""
}

func (h *hall) book(seat int, name string) bool {
	if !h.isFree(seat) {
		return false
	}
	pause()
	h.mutex.Lock()
	defer h.mutex.Unlock()
	h.seats[seat] = name
	return true
}

func runHall() {
	opera := &hall{}
	clock := time.NewTicker(time.Millisecond)
	defer clock.Stop()
	var booked sync.WaitGroup
	for _, name := range []string{"ann", "bob"} {
		<-clock.C
		booked.Add(1)
		go func(name string) {
			defer booked.Done()
			if name == "bob" {
				awaitPause()
				defer resume()
			}
			opera.book(3, name)
		}(name)
	}
	booked.Wait()
}

// inventory: what was reserved is given back once, by the timer or by who doesn't need it. Atomic.
type inventory struct {
	mutex sync.Mutex
	stock int
}

type reservation struct {
	from  *inventory
	count int
	once  sync.Once
	ended chan struct{}
}

func (i *inventory) change(by int) {
	i.mutex.Lock()
	defer i.mutex.Unlock()
	i.stock += by
}

func (i *inventory) reserve(count int) *reservation {
	i.change(-count)
	made := &reservation{from: i, count: count, ended: make(chan struct{})}
	time.AfterFunc(time.Millisecond, made.giveBack)
	return made
}

func (r *reservation) giveBack() {
	r.once.Do(func() {
		r.from.change(r.count)
		close(r.ended)
	})
}

func runInventory() {
	books := &inventory{stock: 10}
	var all sync.WaitGroup
	for i := 0; i < 4; i++ {
		all.Add(1)
		go func(needed bool) {
			defer all.Done()
			mine := books.reserve(2)
			if !needed {
				mine.giveBack()
			}
			<-mine.ended
		}(i%2 == 0)
	}
	all.Wait()
	if books.stock != 10 {
		panic("books are lost")
	}
}

// scores: record adds under one lock, and at its end looks at the page under another one. Meanwhile publish has brought the new points to
// the page, so record sees its own points through publish.
type scores struct {
	start  sync.Once
	mutex  sync.Mutex
	points map[string]int

	paper sync.Mutex
	page  string
}

func (s *scores) record(player string, points int) (page string) {
	s.start.Do(func() { s.points = map[string]int{} })
	defer func() {
		s.paper.Lock()
		page = s.page
		s.paper.Unlock()
	}()
	s.mutex.Lock()
	s.points[player] += points
	s.mutex.Unlock()
	pause()
	return
}

func (s *scores) publish() {
	best := ""
	s.mutex.Lock()
	for player, points := range s.points {
		if points > s.points[best] {
			best = player
		}
	}
	s.mutex.Unlock()
	s.paper.Lock()
	s.page = "first: " + best
	s.paper.Unlock()
}

func runScores() {
	game := &scores{}
	var both sync.WaitGroup
	both.Add(2)
	go func() { defer both.Done(); game.record("ann", 3) }()
	go func() { defer both.Done(); awaitPause(); game.publish(); resume() }()
	both.Wait()
}
