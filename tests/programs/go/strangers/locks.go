package main

import (
	"encoding/json"
	"fmt"
	"runtime"
	"sort"
	"strings"
	"sync"
	"sync/atomic"
)

// tickets: issue tries to lock for the next number, and changes it under another lock, after somebody else has got the same number.
type tickets struct {
	mutex sync.Mutex
	next  int
}

func (t *tickets) issue() int {
	if !t.mutex.TryLock() {
		return -1
	}
	number := t.next
	t.mutex.Unlock()
	pause()
	t.mutex.Lock()
	defer t.mutex.Unlock()
	t.next = number + 1
	return number
}

func runTickets() {
	office := &tickets{next: 1}
	var both sync.WaitGroup
	both.Add(2)
	go func() { defer both.Done(); office.issue() }()
	go func() { defer both.Done(); awaitPause(); office.issue(); resume() }()
	both.Wait()
	if office.next != 2 {
		panic("the numbers differ")
	}
}

// vault: who doesn't get the lock at once is refused, and has touched nothing that the other one uses. Atomic.
type vault struct {
	mutex        sync.Mutex
	gold, silver int
	refused      atomic.Int64
}

func (v *vault) exchange(amount int) bool {
	if !v.mutex.TryLock() {
		v.refused.Add(1)
		return false
	}
	defer v.mutex.Unlock()
	v.gold -= amount
	pause()
	v.silver += 10 * amount
	return true
}

func runVault() {
	cellar := &vault{gold: 10}
	var both sync.WaitGroup
	both.Add(2)
	go func() { defer both.Done(); cellar.exchange(1) }()
	go func() { defer both.Done(); awaitPause(); cellar.exchange(2); resume() }()
	both.Wait()
	if cellar.refused.Load() != 1 || cellar.silver != 10 {
		panic("nobody was refused")
	}
}

// striped: total adds up the stripes under one lock after another, and in between somebody moves an item from the first to the second.
type stripe struct {
	mutex sync.Mutex
	items map[string]int
}

func (s *stripe) sum() (sum int) {
	s.mutex.Lock()
	defer s.mutex.Unlock()
	for _, count := range s.items {
		sum += count
	}
	return sum
}

type striped [2]stripe

func (s *striped) total() (sum int) {
	for i := range s {
		sum += s[i].sum()
		pause()
	}
	return sum
}

func (s *striped) move(item string) {
	for i := range s {
		s[i].mutex.Lock()
		defer s[i].mutex.Unlock()
	}
	s[1].items[item] += s[0].items[item]
	delete(s[0].items, item)
}

func runStriped() {
	store := &striped{{items: map[string]int{"nail": 3}}, {items: map[string]int{"screw": 4}}}
	total := 0
	var both sync.WaitGroup
	both.Add(2)
	go func() { defer both.Done(); total = store.total() }()
	go func() { defer both.Done(); awaitPause(); store.move("nail"); resume() }()
	both.Wait()
	if total != 10 {
		panic("the move wasn't in between")
	}
}

// chain: an ordered list, each link with a lock. insert locks the next link before it unlocks the last one, so nobody overtakes. Atomic.
type link struct {
	mutex sync.Mutex
	value int
	next  *link
}

func (l *link) insert(value int) {
	l.mutex.Lock()
	at := l
	for at.next != nil && at.next.value < value {
		next := at.next
		next.mutex.Lock()
		at.mutex.Unlock()
		at = next
		if at.value == 20 {
			pause()
		}
	}
	at.next = &link{value: value, next: at.next}
	at.mutex.Unlock()
}

func runChain() {
	chain := &link{next: &link{value: 10, next: &link{value: 20, next: &link{value: 30}}}}
	var both sync.WaitGroup
	both.Add(2)
	go func() { defer both.Done(); chain.insert(25) }()
	go func() { defer both.Done(); awaitPause(); chain.insert(15); resume() }()
	both.Wait()
}

// ledger: transfer debits and credits under two locks, and audit reads both accounts in between, under the lock for readers.
type ledger struct {
	mutex    sync.RWMutex
	accounts map[string]int
}

func (l *ledger) post(account string, amount int) {
	l.mutex.Lock()
	l.accounts[account] += amount
	l.mutex.Unlock()
}

func (l *ledger) transfer(from, to string, amount int) {
	l.post(from, -amount)
	pause()
	l.post(to, amount)
}

func (l *ledger) audit() (sum int) {
	l.mutex.RLock()
	defer l.mutex.RUnlock()
	for _, amount := range l.accounts {
		sum += amount
	}
	return sum
}

func runLedger() {
	year := &ledger{accounts: map[string]int{"ann": 50, "bob": 50}}
	sum := 0
	var both sync.WaitGroup
	both.Add(2)
	go func() { defer both.Done(); year.transfer("ann", "bob", 20) }()
	go func() { defer both.Done(); awaitPause(); sum = year.audit(); resume() }()
	both.Wait()
	if sum != 80 {
		panic("the audit wasn't in between")
	}
}

// loan: who borrows the book locks it, and another goroutine gives it back. renew looks at the holder, and writes it after that.
type loan struct {
	mutex  sync.Mutex
	holder atomic.Value
}

func (l *loan) borrow(name string) {
	l.mutex.Lock()
	l.holder.Store(name)
}

func (l *loan) giveBack() {
	l.holder.Store("nobody")
	l.mutex.Unlock()
}

func (l *loan) renew(name string) {
	if l.holder.Load() == name {
		pause()
		l.holder.Store(name)
	}
}

func runLoan() {
	book := &loan{}
	var both sync.WaitGroup
	both.Add(2)
	go func() { defer both.Done(); book.borrow("ann"); book.renew("ann") }()
	go func() { defer both.Done(); awaitPause(); book.giveBack(); resume() }()
	both.Wait()
	if !book.mutex.TryLock() || book.holder.Load() != "ann" {
		panic("the book wasn't given back")
	}
}

// document: save makes the text of a copy, and keeps it after a newer text has been kept.
type draft struct {
	Title string
	Words int
}

type document struct {
	mutex sync.RWMutex
	now   draft
	saved []byte
}

func (d *document) write(words int) {
	d.mutex.Lock()
	defer d.mutex.Unlock()
	d.now.Words += words
}

func (d *document) save() {
	d.mutex.RLock()
	copied := d.now
	d.mutex.RUnlock()
	text, err := json.Marshal(copied)
	if err != nil {
		panic(err)
	}
	pause()
	d.mutex.Lock()
	d.saved = text
	d.mutex.Unlock()
}

func runDocument() {
	letter := &document{now: draft{"To Bob", 1}}
	var both sync.WaitGroup
	both.Add(2)
	go func() { defer both.Done(); letter.save() }()
	go func() { defer both.Done(); awaitPause(); letter.write(5); letter.save(); resume() }()
	both.Wait()
	if string(letter.saved) != `{"Title":"To Bob","Words":1}` {
		panic("the newer text was kept")
	}
}

// votes: cast looks with the lock for readers, as a Locker, whether there is a place on the list, and adds the name under the other lock.
type votes struct {
	mutex sync.RWMutex
	names []string
}

func (v *votes) count(lock sync.Locker) int {
	lock.Lock()
	defer lock.Unlock()
	return len(v.names)
}

func (v *votes) cast(name string) bool {
	if v.count(v.mutex.RLocker()) > 0 {
		return false
	}
	pause()
	v.mutex.Lock()
	defer v.mutex.Unlock()
	v.names = append(v.names, name)
	return true
}

func runVotes() {
	list := &votes{}
	var both sync.WaitGroup
	both.Add(2)
	go func() { defer both.Done(); list.cast("ann") }()
	go func() { defer both.Done(); awaitPause(); list.cast("bob"); resume() }()
	both.Wait()
	if list.count(&list.mutex) != 2 {
		panic("one vote was refused")
	}
}

// tags: addAll lists another set and adds each tag to this one, and in between a tag is taken from there to here.
type tags[T comparable] struct {
	mutex sync.Mutex
	all   map[T]bool
}

func (t *tags[T]) list() (list []T) {
	t.mutex.Lock()
	defer t.mutex.Unlock()
	for tag := range t.all {
		list = append(list, tag)
	}
	return list
}

func (t *tags[T]) add(tag T) {
	t.mutex.Lock()
	defer t.mutex.Unlock()
	t.all[tag] = true
}

func (t *tags[T]) addAll(from *tags[T]) {
	for _, tag := range from.list() {
		pause()
		t.add(tag)
	}
}

func (t *tags[T]) take(from *tags[T], tag T) {
	t.mutex.Lock()
	defer t.mutex.Unlock()
	from.mutex.Lock()
	defer from.mutex.Unlock()
	delete(from.all, tag)
	t.all[tag] = true
}

func runTags() {
	home, work := &tags[string]{all: map[string]bool{"red": true}}, &tags[string]{all: map[string]bool{}}
	var both sync.WaitGroup
	both.Add(2)
	go func() { defer both.Done(); work.addAll(home) }()
	go func() { defer both.Done(); awaitPause(); work.take(home, "red"); resume() }()
	both.Wait()
}

// supervised: a step that panics unlocks on its way out, and its caller goes on. Atomic.
type supervised struct {
	mutex         sync.Mutex
	right, failed int
}

func (s *supervised) step(n int) {
	s.mutex.Lock()
	defer s.mutex.Unlock()
	if n%3 == 0 {
		s.failed++
		panic(fmt.Sprint("step ", n))
	}
	s.right++
}

func (s *supervised) try(n int) (cause any) {
	defer func() { cause = recover() }()
	s.step(n)
	return nil
}

func runSupervised() {
	steps := &supervised{}
	var all sync.WaitGroup
	for i := 0; i < 3; i++ {
		all.Add(1)
		go func() {
			defer all.Done()
			for n := 0; n < 9; n++ {
				steps.try(n)
				runtime.Gosched()
			}
		}()
	}
	all.Wait()
	if steps.right != 18 || steps.failed != 9 {
		panic("a step is lost")
	}
}

// report: rows are added, sorted and printed under one lock. Atomic.
type row struct {
	name  string
	price float64
}

type report struct {
	sync.Mutex
	rows []row
}

func (r *report) add(name string, price float64) {
	r.Lock()
	defer r.Unlock()
	r.rows = append(r.rows, row{name, price})
}

func (r *report) String() string {
	r.Lock()
	defer r.Unlock()
	sort.Slice(r.rows, func(i, j int) bool { return r.rows[i].price < r.rows[j].price })
	var text strings.Builder
	for _, row := range r.rows {
		fmt.Fprintf(&text, "%-8s%6.2f\n", row.name, row.price)
	}
	return text.String()
}

func runReport() {
	prices := &report{}
	var all sync.WaitGroup
	for i := 1; i <= 3; i++ {
		all.Add(1)
		go func(i int) {
			defer all.Done()
			for n := 0; n < 6; n++ {
				prices.add(fmt.Sprint("item ", n), float64(10-n)/float64(i))
				_ = fmt.Sprint(prices)
			}
		}(i)
	}
	all.Wait()
}
