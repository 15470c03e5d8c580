package main

// The hidden scheduler of the generated programs: the functions marked norace are not logged.

import (
	"os"
	"runtime"
	"strconv"
	"sync"
	"time"
	"unsafe"
)

type pair struct {
	a int64
	b int32
}
type big struct{ a, b, c, d int64 }
type left struct{}

var (
	current  int
	pointers [1024]unsafe.Pointer
	flags    [4096]bool
	marked   bool
	marks    [8192]int64
	anything int64 = 1
	held     int64
	source   [4]int64
	aBig     big
)

//go:norace
func turn(step int) {
	for current != step {
		runtime.Gosched()
	}
	if marked {
		asideMark(step)
	}
}

//go:norace
func done(step int) { current = step + 1 }

// ended marks that the goroutine of a thread has no steps any more.
//
//go:norace
func ended(thread int) {
	if marked {
		asideMark(8000 + thread)
	}
}

//go:norace
func put(at int, it unsafe.Pointer) { pointers[at] = it }

//go:norace
func at(at int) unsafe.Pointer { return pointers[at] }

//go:norace
func flag(at int) { flags[at] = true }

//go:norace
func flagged(at int) bool { return flags[at] }

// follow waits until the step has begun. It marks that the goroutine is there, so that its blocks have begun in the log.
//
//go:norace
func follow(step int) {
	for !flags[step] {
		runtime.Gosched()
	}
	if marked {
		asideMark(4000 + step)
	}
}

// pause gives another goroutine the time to wait for what comes next.
//
//go:norace
func pause() {
	for turns := 0; turns < 40; turns++ {
		runtime.Gosched()
	}
}

// fired waits until a timer has sent.
//
//go:norace
func fired(it *time.Timer) {
	for len(it.C) == 0 {
		runtime.Gosched()
	}
}

// loaded returns a value that has to be there.
//
//go:norace
func loaded(it any, isThere bool) any {
	if !isThere {
		panic(1)
	}
	return it
}

//go:norace
func none[T any]() chan T { return nil }

//go:norace
func some() int64 { anything = anything * 3 & 127; return anything }

//go:norace
func text() string {
	if some() > 5 {
		return "abc"
	}
	return "de"
}

//go:norace
func peek64(at unsafe.Pointer) int64 { return *(*int64)(at) }

//go:norace
func peek32(at unsafe.Pointer) int32 { return *(*int32)(at) }

//go:norace
func use[T any](it T) { _ = it }

//go:norace
func sourceOf() []int64 { return source[:] }

//go:norace
func targetOf() []int64 { return make([]int64, 4) }

//go:norace
func bigOf() *big { return &aBig }

//go:norace
func steps(most int) bool { return current < most }

func asideMark(step int)           { marks[step] = 1 }
func asideUnlock(it sync.Locker)   { defer it.Unlock() }
func asideDone(it *sync.WaitGroup) { defer it.Done() }
func asideCaught()                 { recover() }
func asideMakeBig() big            { return big{1, 2, 3, some()} }
func asideTakeBig(it big)          { use(it) }

// keeper is a block that is open while the steps are done, so that there is no quiet moment in which numbers are free again.
func keeper(most int) {
	held = 1
	for steps(most) {
		runtime.Gosched()
	}
}

func main() {
	marked = os.Getenv("STAGE_MARKS") != ""
	number, _ := strconv.Atoi(os.Getenv("STAGE_TRACE"))
	traces[number]()
}
