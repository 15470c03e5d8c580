// Package meet lets goroutines wait for one another by pipes: a log has no order by these, and no sleep is needed. And it starts
// goroutines with functions of other packages.
package meet

import "syscall"

// Point is where others wait.
type Point struct{ read, write int }

// New makes a point. One that can't be made ends the program.
func New() Point {
	var ends [2]int
	if err := syscall.Pipe(ends[:]); err != nil {
		panic(err)
	}
	return Point{ends[0], ends[1]}
}

// Tell lets up to four go on that wait, or will.
func (p Point) Tell() {
	if _, err := syscall.Write(p.write, []byte("....")); err != nil {
		panic(err)
	}
}

// Await waits until somebody has told.
func (p Point) Await() {
	var byte [1]byte
	for {
		n, err := syscall.Read(p.read, byte[:])
		if n == 1 {
			return
		}
		if err != nil && err != syscall.EINTR {
			panic(err)
		}
	}
}

// Start runs the function in a goroutine of its own.
func Start(f func()) {
	go func() {
		defer recover()
		f()
	}()
}
