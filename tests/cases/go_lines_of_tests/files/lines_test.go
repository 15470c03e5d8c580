package lines

import (
	"runtime"
	"testing"

	"lines/check"
)

var turn int

// Waits for the turn, and gives it to the next one.
//
//go:norace
func take(n int) {
	for turn != n {
		runtime.Gosched()
	}
	turn++
}

// One goroutine calls the function as a whole, while the other one is in the midst of it.
func between(t *testing.T, f func(t testing.TB, pause func())) {
	done := make(chan bool)
	turn = 0
	go func() { f(t, func() { take(0); take(2) }); done <- true }()
	take(1)
	f(t, func() {})
	turn = 2
	<-done
}
func TestAgree(t *testing.T)  { between(t, check.Agree) }
func TestDiffer(t *testing.T) { between(t, check.Differ) }
