package main

import (
	"bytes"
	"sync"
	"sync/atomic"
	"time"
)

// sessions: who asks for a session that somebody else opens waits for that one. Atomic, and so is the session of another user meanwhile.
type session struct {
	user   string
	number int
}

type opening struct {
	done    chan struct{}
	session *session
}

type sessions struct {
	mutex sync.Mutex
	all   map[string]*opening
}

func (s *sessions) get(user string, open func() *session) *session {
	s.mutex.Lock()
	if found, ok := s.all[user]; ok {
		s.mutex.Unlock()
		<-found.done
		return found.session
	}
	mine := &opening{done: make(chan struct{})}
	s.all[user] = mine
	s.mutex.Unlock()
	mine.session = open()
	close(mine.done)
	return mine.session
}

func runSessions() {
	store := &sessions{all: map[string]*opening{}}
	got := make([]*session, 2)
	var all sync.WaitGroup
	for i := range got {
		i := i
		all.Add(1)
		go func() {
			defer all.Done()
			got[i] = store.get("ann", func() *session { pause(); return &session{"ann", i} })
		}()
	}
	all.Add(1)
	go func() {
		defer all.Done()
		awaitPause()
		store.get("bob", func() *session { return &session{"bob", 7} })
		resume()
	}()
	all.Wait()
	if got[0] != got[1] {
		panic("two sessions of one user")
	}
}

// settings: host and port are read under the lock for readers, but one after the other, and both are changed in between.
var buffers = sync.Pool{New: func() any { return new(bytes.Buffer) }}

type settings struct {
	mutex  sync.RWMutex
	values map[string]string
}

func (s *settings) get(key string) string {
	s.mutex.RLock()
	defer s.mutex.RUnlock()
	return s.values[key]
}

func (s *settings) set(host, port string) {
	s.mutex.Lock()
	defer s.mutex.Unlock()
	s.values["host"], s.values["port"] = host, port
}

func (s *settings) address() string {
	buffer := buffers.Get().(*bytes.Buffer)
	defer buffers.Put(buffer)
	buffer.Reset()
	buffer.WriteString(s.get("host"))
	pause()
	buffer.WriteByte(':')
	buffer.WriteString(s.get("port"))
	return buffer.String()
}

func runSettings() {
	shared := &settings{values: map[string]string{"host": "old", "port": "80"}}
	var both sync.WaitGroup
	both.Add(2)
	go func() { defer both.Done(); shared.address() }()
	go func() { defer both.Done(); awaitPause(); shared.set("new", "443"); resume() }()
	both.Wait()
}

// pages: a page is loaded once by those who ask at the same time. But get forgets that it loads before it keeps the page, so another get
// in between loads it again.
type pages struct {
	mutex   sync.Mutex
	kept    map[string]string
	loading map[string]chan struct{}
	loads   atomic.Int64
}

func (p *pages) get(address string) string {
	p.mutex.Lock()
	if page, ok := p.kept[address]; ok {
		p.mutex.Unlock()
		return page
	}
	if done, ok := p.loading[address]; ok {
		p.mutex.Unlock()
		<-done
		return p.get(address)
	}
	done := make(chan struct{})
	p.loading[address] = done
	p.mutex.Unlock()
	p.loads.Add(1)
	p.forget(address)
	close(done)
	pause()
	return p.keep(address, "page of "+address)
}

func (p *pages) forget(address string) {
	p.mutex.Lock()
	defer p.mutex.Unlock()
	delete(p.loading, address)
}

func (p *pages) keep(address, page string) string {
	p.mutex.Lock()
	defer p.mutex.Unlock()
	p.kept[address] = page
	return page
}

func runPages() {
	cache := &pages{kept: map[string]string{}, loading: map[string]chan struct{}{}}
	var both sync.WaitGroup
	both.Add(2)
	go func() { defer both.Done(); cache.get("/") }()
	go func() { defer both.Done(); awaitPause(); cache.get("/"); resume() }()
	both.Wait()
	if cache.loads.Load() != 2 {
		panic("loaded once")
	}
}

// recent: evict looks for the key that wasn't used for the longest time, and deletes it, although it was used meanwhile.
type entry struct {
	value string
	used  atomic.Int64
}

type recent struct {
	entries sync.Map
	clock   atomic.Int64
}

func (r *recent) put(key, value string) {
	made := &entry{value: value}
	made.used.Store(r.clock.Add(1))
	r.entries.Store(key, made)
}

func (r *recent) get(key string) string {
	found, ok := r.entries.Load(key)
	if !ok {
		return ""
	}
	found.(*entry).used.Store(r.clock.Add(1))
	return found.(*entry).value
}

func (r *recent) evict() {
	var oldest any
	first := int64(1 << 62)
	r.entries.Range(func(key, value any) bool {
		if used := value.(*entry).used.Load(); used < first {
			oldest, first = key, used
		}
		return true
	})
	pause()
	r.entries.Delete(oldest)
}

func runRecent() {
	cache := &recent{}
	for _, key := range []string{"a", "b", "c"} {
		cache.put(key, "value of "+key)
	}
	var both sync.WaitGroup
	both.Add(2)
	go func() { defer both.Done(); cache.evict() }()
	go func() { defer both.Done(); awaitPause(); cache.get("a"); resume() }()
	both.Wait()
}

// table: rows that a timer deletes. Atomic: put takes the lock before it sets the timer, and not again.
type table struct {
	mutex sync.Mutex
	rows  map[string]int
	gone  chan string
}

func (t *table) put(key string, value int) {
	t.mutex.Lock()
	t.rows[key] = value
	t.mutex.Unlock()
	time.AfterFunc(time.Millisecond, func() { t.expire(key) })
}

func (t *table) expire(key string) {
	t.mutex.Lock()
	delete(t.rows, key)
	t.mutex.Unlock()
	t.gone <- key
}

func runTable() {
	rows := &table{rows: map[string]int{}, gone: make(chan string, 6)}
	var all sync.WaitGroup
	all.Add(3)
	for _, name := range []string{"a", "b", "c"} {
		go func(name string) {
			defer all.Done()
			rows.put(name, 1)
			rows.put(name+name, 2)
		}(name)
	}
	for i := 0; i < 6; i++ {
		<-rows.gone
	}
	all.Wait()
}
