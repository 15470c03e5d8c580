package main

import _ "unsafe"

type account struct{ money int }

func (a *account) Pay() { a.money++ }

var call func()

// By such a name Go 1.23 calls the body of a loop over a function, which is a part of the function with the loop.
//
//go:linkname body main.each-range1
func body(a *account) { a.Pay() }
func each(a *account) { body(a) }

// Two structs are compared by what the compiler makes for their type.
type entry struct {
	name   string
	fields [6]int
}

var first, second entry

func same() bool { return first == second }

func main() {
	same()
	a := new(account)
	call = a.Pay
	call()
	each(a)
}
