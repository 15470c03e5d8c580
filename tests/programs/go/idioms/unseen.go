// Further programs of this package, by what happens unseen: in functions that Go makes, in the library, and to several variables at once.
package main

import (
	"context"
	"crypto/rand"
	"encoding/gob"
	"encoding/json"
	"encoding/xml"
	"hash/crc32"
	"html"
	"io"
	"math/big"
	"net"
	"reflect"
	"strings"
	"sync"
	"sync/atomic"
	"time"
)

// A goroutine starts with a method, through an interface, that a struct has from another one. So the method is no block.
type service interface{ Serve() }
type engine struct{ all *sync.WaitGroup }
type plant struct {
	name string
	*engine
}

func (e *engine) Serve() {
	seen := lockedLook()
	mark(0)
	after(1)
	lockedChange(seen + 1)
	e.all.Done()
}

var power service

func changeAndLeave(all *sync.WaitGroup) { changeBetween(lockedChange); all.Done() }
func promotedStarts() {
	var all sync.WaitGroup
	power = &plant{"coal", &engine{&all}}
	all.Add(2)
	go power.Serve()
	go changeAndLeave(&all)
	all.Wait()
}

// The library unlocks what the program has locked before the block.
func unlockLater()  { time.AfterFunc(time.Millisecond, rw.Unlock); mark(0); after(1); flag.Load() }
func lockAfterIt()  { after(0); rw.Lock(); flag.Store(1); mark(1); rw.Unlock() }
func unlocksLater() { rw.Lock(); both(unlockLater, lockAfterIt) }

// A method may be called init.
type lazy struct{ n int64 }

var lazily lazy

func (l *lazy) init() {
	seen := lockedLook()
	mark(0)
	after(1)
	l.n = seen
	lockedChange(seen + 1)
}
func initMethod() { both(lazily.init, func() { changeBetween(lockedChange) }) }

// A struct is copied before its number is changed for the first time.
type gauge struct {
	name string
	hits atomic.Int64
}

var gaugeNow, gaugeBefore gauge

func copyGauge(to, from *gauge) { *to = *from }
func gaugeLook() int64          { copyGauge(&gaugeBefore, &gaugeNow); return 0 }
func gaugeChange(n int64)       { gaugeNow.hits.Add(n) }

// Two small numbers lie side by side, and were set to zero together. The one comes first by another variable.
type twin struct{ a, b int32 }

var (
	twins = &twin{1, 1}
	ahead int64
)

func writeAhead()  { ahead = 1; mark(0); after(1); twins.b = 2 }
func writeBehind() { after(0); twins.a = int32(ahead); mark(1) }

// The library makes something when it is needed first. Each function has it make one of two things, and finds the other one made.
func inTurns(f func(int)) func() {
	return func() { both(func() { f(0); mark(0); after(1); f(1) }, func() { after(0); f(0); f(1); mark(1) }) }
}
func useTable(n int) {
	if n == 0 {
		crc32.ChecksumIEEE(nil)
	} else {
		html.UnescapeString("&lt;")
	}
}

var replacers = [2]*strings.Replacer{strings.NewReplacer("<", "&lt;", "&", "&amp;"), strings.NewReplacer("\r", "", "\n", ";")}

func replace(n int) { replacers[n].Replace("<") }
func makeTypes(n int) {
	of := reflect.ArrayOf(1000+n, reflect.TypeOf(n))
	reflect.PointerTo(of)
	reflect.SliceOf(of)
	reflect.MapOf(of, of)
	reflect.ChanOf(reflect.BothDir, of)
	reflect.FuncOf([]reflect.Type{of}, nil, false)
	reflect.StructOf([]reflect.StructField{{Name: "Of", Type: of}})
}

type leaf struct{ X, Y int }
type branch struct {
	Leaves []leaf
	First  *leaf
}

func valueOf(n int) any { return [2]any{leaf{1, 2}, branch{First: &leaf{3, 4}}}[n] }
func decodeJSON(n int) {
	json.Unmarshal([]byte(`{"X": 1}`), reflect.New(reflect.TypeOf(valueOf(n))).Interface())
}
func encodeXML(n int) { xml.Marshal(valueOf(n)) }
func encodeGob(n int) { gob.NewEncoder(io.Discard).Encode(valueOf(n)) }

// The same of what it makes without a Once, and of what a context keeps of those that are derived from it.
var parent, endParent = context.WithCancel(context.Background())
var huge = new(big.Int).Lsh(big.NewInt(1), 1200)
var resolver = net.Resolver{PreferGo: true, Dial: func(context.Context, string, string) (net.Conn, error) { return nil, io.EOF }}

func askForChannel()              { parent.Done() }
func readRandom()                 { rand.Read(make([]byte, 8)) }
func printHuge()                  { _ = huge.String() }
func findHost()                   { resolver.LookupHost(context.Background(), "localhost") }
func derive()                     { context.WithTimeout(parent, time.Hour) }
func deriveAndEnd()               { _, end := context.WithTimeout(parent, time.Hour); end() }
func deriveAround()               { _, end := context.WithCancel(parent); mark(0); after(1); end() }
func deriveBetween()              { after(0); deriveAndEnd(); mark(1) }
func twiceInTurn(f func()) func() { return follows(f, f) }

// But who derives from a context finds out whether that has ended, and who asks for the channel of one that has finds it closed.
func awaitParent() { <-parent.Done() }

// And what a Once of the library closes is found closed.
var near, far = net.Pipe()

func closeNear() { near.Close() }
func readFar()   { far.Read(make([]byte, 1)) }

// The library keeps what it has found out about types, of which several goroutines need a new one at once.
type nothing struct{}

func encodeTwice(v any) { json.Marshal(v); json.Marshal(v) }
func encodeAll(start chan bool, all *sync.WaitGroup) {
	<-start
	encodeGob(1)
	for i := 1; i < 60; i++ {
		encodeTwice(reflect.New(reflect.ArrayOf(i, reflect.TypeOf(nothing{}))).Interface())
	}
	all.Done()
}
func encodes() {
	start := make(chan bool)
	var all sync.WaitGroup
	for i := 0; i < 8; i++ {
		all.Add(1)
		go encodeAll(start, &all)
	}
	close(start)
	all.Wait()
}

func init() {
	for word, run := range map[string]func(){
		"library-tables":     inTurns(useTable),
		"library-replacers":  inTurns(replace),
		"library-reflect":    inTurns(makeTypes),
		"library-json":       inTurns(decodeJSON),
		"library-xml":        inTurns(encodeXML),
		"library-gob":        inTurns(encodeGob),
		"library-channel":    twiceInTurn(askForChannel),
		"library-random":     twiceInTurn(readRandom),
		"library-huge":       twiceInTurn(printHuge),
		"library-hosts":      twiceInTurn(findHost),
		"library-derives":    twiceInTurn(deriveAndEnd),
		"library-derived":    func() { both(deriveAround, deriveBetween) },
		"derive-end":         follows(derive, func() { endParent() }),
		"end-derive":         follows(func() { endParent() }, derive),
		"end-await":          follows(func() { endParent() }, awaitParent),
		"library-closes":     follows(closeNear, readFar),
		"library-types":      encodes,
		"promoted-starts":    promotedStarts,
		"unlocked-by-timer":  unlocksLater,
		"init-method-splits": initMethod,
		"gauge-splits":       splits(gaugeLook, gaugeChange),
		"twins":              func() { *twins = twin{}; both(writeAhead, writeBehind) },
	} {
		words[word] = run
	}
}
