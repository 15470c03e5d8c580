// Package check has what tests of other packages call.
package check

import "testing"

// Agree writes a line behind the pause.
func Agree(t testing.TB, pause func()) {
	t.Helper()
	t.Log("asked")
	pause()
	t.Log("agreed")
}

// Differ fails the test, and then writes a line.
func Differ(t testing.TB, pause func()) {
	t.Helper()
	t.Fail()
	pause()
	t.Errorf("differs")
}
