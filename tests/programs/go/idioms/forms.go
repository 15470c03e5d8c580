// Further programs of this package, by what a statement does at once: copies, ranges, comparisons, and values of types that hide a pointer.
package main

import (
	"bytes"
	"sync"
	"sync/atomic"
	"time"
	"unsafe"
)

// A slice that is copied as a whole.
var long, brief = make([]int64, 9), make([]int64, 9)

func copiedLook() int64 { copy(brief, long); return brief[8] }
func copiedChange(n int64) {
	for i := range brief {
		brief[i] = n
	}
	copy(long, brief)
}
func copiedBetween() { after(0); copy(long[3:], []int64{7, 7}); mark(1) }

// A map that is asked for its length, and loses an entry.
var ages = map[string]int64{"a": 1, "b": 2}

func lengthLook() int64     { return int64(len(ages)) }
func lengthChange(n int64)  { ages["c"] = n }
func deletedChange(n int64) { delete(ages, "a"); delete(ages, "c") }
func clearedBetween(n int64) {
	for name := range ages {
		delete(ages, name)
	}
}

// An array is copied before its range begins, a slice isn't.
var cells [3]int64

func rangeOfArray() (sum int64) {
	for i, n := range cells {
		if i == 0 {
			mark(0)
			after(1)
		}
		sum += n
	}
	return sum
}
func rangeOfSlice(of []int64) (sum int64) {
	for i, n := range of {
		if i == 0 {
			mark(0)
			after(1)
		}
		sum += n
	}
	return sum
}
func cellsChange(n int64) { cells[0], cells[2] = n, n }

// Structs that are compared and assigned as a whole.
type board struct {
	width, height int16
	name          string
}

var now, before board

func boardLook() int64 {
	if now == before {
		return 1
	}
	return 0
}
func boardChange(n int64) { now = board{name: "next"} }
func boardBetween()       { after(0); now.height++; mark(1) }

// A grown that grows under the lock.
var grown string

func extend() { mu.Lock(); grown += "a"; mu.Unlock() }

// A loop around a compare-and-swap reads what another goroutine has changed.
var counter atomic.Int64

func swapLoop(waits bool) {
	for {
		seen := counter.Load()
		if waits {
			waits = false
			mark(0)
			after(1)
		}
		if counter.CompareAndSwap(seen, seen+1) {
			return
		}
	}
}
func swapBetween() { after(0); swapLoop(false); mark(1) }

// The readers' half of a lock as a Locker, and a reader that becomes a writer.
var ledger sync.RWMutex

func readAsLocker() {
	half := ledger.RLocker()
	half.Lock()
	defer half.Unlock()
	if total < 0 {
		panic("negative")
	}
}
func writeLedger()         { ledger.Lock(); total++; ledger.Unlock() }
func ledgerLook() int64    { ledger.RLock(); defer ledger.RUnlock(); return total }
func ledgerChange(n int64) { ledger.Lock(); defer ledger.Unlock(); total = n }

// A timer calls a function of the program.
var ticked = make(chan bool)

func tick() { mu.Lock(); total++; mu.Unlock() }
func afterFuncs() {
	for i := 0; i < 20; i++ {
		time.AfterFunc(time.Microsecond, func() { tick(); ticked <- true })
		tick()
		<-ticked
	}
}

// A buffer of the library, under a lock for each call.
var buffer bytes.Buffer

func bufferLook() int64    { mu.Lock(); defer mu.Unlock(); return int64(buffer.Len()) }
func bufferChange(n int64) { mu.Lock(); defer mu.Unlock(); buffer.WriteByte(byte(n)) }

// Each goroutine has the variable of its turn.
var turns [4]int64

func ownSlots() {
	var all sync.WaitGroup
	for i := range turns {
		i := i
		all.Add(1)
		go func() {
			turns[i]++
			turns[i] *= 2
			all.Done()
		}()
	}
	all.Wait()
}

// A map of pointers, with a lock for the map alone.
type entry struct{ n int64 }

var entries = map[int]*entry{}

func entryOf(key int) *entry {
	mu.Lock()
	defer mu.Unlock()
	if entries[key] == nil {
		entries[key] = new(entry)
	}
	return entries[key]
}
func addToEntry(key int) { entryOf(key).n++ }
func entriesOfTheirOwn() {
	both(func() { addToEntry(0); mark(0); after(1); addToEntry(0); mark(2) },
		func() { after(0); addToEntry(1); mark(1); after(2); addToEntry(1) })
}

// A list of nodes, with its head under a lock.
type node struct {
	next *node
	n    int64
}

var head *node

func push() { mu.Lock(); head = &node{head, total}; total++; mu.Unlock() }
func topLook() int64 {
	mu.Lock()
	defer mu.Unlock()
	if head == nil {
		return 0
	}
	return head.n
}
func topChange(n int64) { mu.Lock(); defer mu.Unlock(); head = &node{nil, n} }

// A pointer by the old functions of sync/atomic.
var root unsafe.Pointer

func rootLook() int64 {
	if seen := (*entry)(atomic.LoadPointer(&root)); seen != nil {
		return seen.n
	}
	return 0
}
func rootChange(n int64) { atomic.StorePointer(&root, unsafe.Pointer(&entry{n})) }

// A variable that holds a function.
var hook = func() int64 { return 1 }

func hookLook() int64    { return hook() }
func hookChange(n int64) { hook = func() int64 { return n } }

// Methods that a struct has from a pointer in it.
type inner struct {
	sync.Mutex
	n int64
}

func (i *inner) look() int64    { i.Lock(); defer i.Unlock(); return i.n }
func (i *inner) change(n int64) { i.Lock(); defer i.Unlock(); i.n = n }

type outer struct{ *inner }

var promoted = outer{new(inner)}

// Two locks that are given back in the order of their defers.
var left, right sync.Mutex

func moveBoth() {
	left.Lock()
	defer left.Unlock()
	right.Lock()
	defer right.Unlock()
	cells[0]--
	cells[1]++
}

func init() {
	for word, run := range map[string]func(){
		"copy-splits":       func() { both(func() { lookAndChange(copiedLook, copiedChange) }, copiedBetween) },
		"map-length-splits": splits(lengthLook, lengthChange),
		"map-delete-splits": func() {
			both(func() { lookAndChange(lengthLook, deletedChange) }, func() { changeBetween(clearedBetween) })
		},
		"range-of-array":        func() { both(func() { rangeOfArray() }, func() { changeBetween(cellsChange) }) },
		"range-of-slice-splits": func() { both(func() { rangeOfSlice(cells[:]) }, func() { changeBetween(cellsChange) }) },
		"compare-splits":        func() { both(func() { lookAndChange(boardLook, boardChange) }, boardBetween) },
		"concatenated":          often(extend),
		"swap-loop-splits":      func() { both(func() { swapLoop(true) }, swapBetween) },
		"read-as-locker":        func() { oftenBoth(readAsLocker, writeLedger) },
		"upgrade-splits":        splits(ledgerLook, ledgerChange),
		"after-func":            afterFuncs,
		"buffer-splits":         splits(bufferLook, bufferChange),
		"own-turns":             ownSlots,
		"entries":               entriesOfTheirOwn,
		"list-push":             often(push),
		"list-splits":           splits(topLook, topChange),
		"unsafe-pointer-splits": splits(rootLook, rootChange),
		"hook-splits":           splits(hookLook, hookChange),
		"promoted-splits":       splits(promoted.look, promoted.change),
		"deferred-order":        often(moveBoth),
	} {
		words[word] = run
	}
}
