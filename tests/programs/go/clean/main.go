// Every function whose name begins with ok is atomic: no log may blame one.
package main

import (
	"context"
	"fmt"
	"log"
	"math/rand"
	"runtime"
	"sync"
	"sync/atomic"
	"time"
)

type item struct{ a, b, c int }

var (
	mu        sync.Mutex
	rw        sync.RWMutex
	sem       = make(chan struct{}, 1)
	semi      = make(chan int, 1)
	token     = make(chan *item, 1)
	out       = make(chan int, 16)
	many      = make(chan struct{}, 4)
	once      sync.Once
	x, y      item
	z, w      item
	t         *item
	n         atomic.Int64
	boxed     atomic.Value
	m         sync.Map
	table     = map[int]int{}
	halves    struct{ low, high int32 }
	low, high sync.Mutex
	pool      = sync.Pool{New: func() any { return &item{} }}

	ctx, cancel = context.WithCancel(context.Background())
	lines       = log.New(nowhere{}, "", log.LstdFlags)
)

type nowhere struct{}

func (nowhere) Write(b []byte) (int, error) { return len(b), nil }

func okMutex(i int)   { mu.Lock(); defer mu.Unlock(); x.a += i; x.b = x.a; table[i%7]++ }
func okRead() int     { rw.RLock(); defer rw.RUnlock(); return y.a + y.b }
func okWrite(i int)   { rw.Lock(); y.a, y.b = i, i; rw.Unlock() }
func okSem(i int)     { sem <- struct{}{}; z.a += i; z.b += z.a; <-sem }
func okSemInt(i int)  { semi <- 1; w.a += i; w.b += w.a; <-semi }
func okToken(i int)   { t := <-token; t.a += i; t.b = t.a; token <- t }
func okSend(i int)    { out <- i }
func okMany()         { many <- struct{}{}; <-many }
func okOnce() int     { once.Do(func() { x.c = 7 }); return x.c }
func okAdd()          { n.Add(1) }
func okBoxed() int    { v, _ := boxed.Load().(int); return v }
func okBox(i int)     { boxed.Store(i) }
func okMapLoad(i int) { m.Load(i % 5) }
func okMapSet(i int)  { m.Store(i%5, i) }
func okFresh(i int) int {
	k := make([]item, 8)
	for j := range k {
		k[j].a = i
	}
	return k[3].a
}
func okPool(i int) {
	p := pool.Get().(*item)
	p.a = i
	pool.Put(p)
	runtime.Gosched()
	p = pool.Get().(*item)
	p.a = i
	pool.Put(p)
	a := fmt.Sprintf("%d %s", i, "x")
	runtime.Gosched()
	_ = fmt.Sprintf("%s %d", a, i)
}
func okPanic(i int) (err error) {
	defer func() { recover(); mu.Unlock() }()
	mu.Lock()
	x.a++
	if i%2 == 0 {
		panic("x")
	}
	x.b++
	return nil
}

// Two numbers of four bytes side by side, each with a lock of its own.
func okLow(i int)  { low.Lock(); halves.low += int32(i); halves.low++; low.Unlock() }
func okHigh(i int) { high.Lock(); halves.high += int32(i); halves.high++; high.Unlock() }

// What the library locks for itself, before and after a lock of the program.
func okLines(i int) { lines.Print(i); okMutex(i); lines.Print(i, " added") }
func okDraw()       { n := rand.Intn(6); okMutex(n); rand.Intn(6) }
func okLife() {
	if ctx.Err() == nil {
		okMutex(1)
		ctx.Err()
	}
}

// The panic is recovered by a function that the caller has deferred.
func okFails(i int) {
	mu.Lock()
	defer mu.Unlock()
	x.a++
	panic(i)
}
func okSelect(i int) {
	select {
	case t := <-token:
		t.a++
		token <- t
	default:
	}
}

func main() {
	token <- &item{}
	stop := make(chan bool)
	var wg, sink sync.WaitGroup
	sink.Add(1)
	go func() {
		defer sink.Done()
		for range out {
		}
		close(stop)
	}()
	go func() {
		tick := time.NewTicker(time.Millisecond)
		for {
			select {
			case <-tick.C:
				okMutex(1)
			case <-ctx.Done():
				return
			}
		}
	}()
	for g := 0; g < 16; g++ {
		g := g
		wg.Add(1)
		go func() {
			defer wg.Done()
			defer func() { recover(); okMutex(g); lines.Print("left") }()
			defer okFails(g)
			for i := 0; i < 200; i++ {
				switch (i*7 + g*3) % 25 {
				case 0, 1:
					okMutex(i)
				case 2, 3:
					okRead()
				case 4:
					okWrite(i)
				case 5:
					okSem(i)
				case 6:
					okSemInt(i)
				case 7:
					okToken(i)
				case 8:
					okSend(i)
				case 9:
					okMany()
				case 10:
					okOnce()
				case 11:
					okAdd()
				case 12:
					okBoxed()
				case 13:
					okBox(i)
				case 14:
					okMapLoad(i)
				case 15:
					okMapSet(i)
				case 16:
					okFresh(i)
				case 17:
					okPanic(i)
				case 18:
					okPool(i)
				case 19:
					okSelect(i)
				case 20:
					okLow(i)
				case 21:
					okHigh(i)
				case 22:
					okLines(i)
				case 23:
					okDraw()
				case 24:
					okLife()
				}
				if i%20 == 0 {
					runtime.Gosched()
				}
			}
		}()
	}
	wg.Wait()
	close(out)
	<-stop
	cancel()
	sink.Wait()
	fmt.Println(n.Load())
}
