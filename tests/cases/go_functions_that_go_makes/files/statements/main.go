// Each go and defer statement has the compiler make a function, as has each value of a generic function or method. None of these is a
// block, but what they call is.
package main

import (
	"fmt"
	"sync"
)

var (
	total int
	all   sync.WaitGroup
	table sync.Map
	ages  = map[string]int{"ann": 1}
)

func add(n int)                        { total += n }
func sum(of ...int) (int, error)       { total += len(of); return total, nil }
func visit(key, value any) bool        { total++; return true }
func finish(n int)                     { total += n; all.Done() }
func double[T int | int64](n T) T      { total *= 2; return n * 2 }
func wide(n int) (of [20]int, _ error) { total += n; of[3] = total; return of, nil }

type adder interface{ add(n int) }
type store struct{ n int }

func (s *store) add(n int)     { total += s.n + n }
func (s store) show(n int) int { total += s.n; return total }

type named struct {
	name string
	*store
}

type box[T any] struct{ is T }

func (b *box[T]) raise()      { total++ }
func (b box[T]) grow(n int)   { total += n }
func (b *box[T]) serve(n int) { total += n; all.Done() }

func deferred() {
	s := &store{1}
	var i adder = named{"i", s}
	numbers, c := []int{1, 2}, make(chan int)
	for n := 0; n < 3; n++ {
		defer add(n)
	}
	defer add(1)
	defer s.add(1)
	defer s.show(1)
	defer i.add(1)
	defer sum(1, 2, 3)
	defer sum(numbers...)
	defer wide(1)
	defer double(2)
	defer fmt.Sprint(s.show(1))
	defer table.Range(visit)
	defer close(c)
	defer delete(ages, "ann")
	defer copy(numbers, numbers[1:])
	defer print("")
	defer recover()
	if s.n > 0 {
		defer add(2)
	}
}
func panics() {
	defer func() { recover() }()
	defer panic("deferred")
}

func values() {
	b := &box[int]{}
	raise, grow, twice := b.raise, b.grow, double[int]
	raise()
	grow(1)
	twice(1)
	(*box[int]).raise(b)
	method := (*box[int]).raise
	method(b)
	for _, f := range []func(){b.raise, func() { b.grow(2) }} {
		f()
	}
}

var global = double[int64]

// What a goroutine starts with is no block by default, but what it defers is.
func started() {
	s := &box[int]{}
	serve := s.serve
	all.Add(6)
	go finish(1)
	go s.serve(1)
	go serve(1)
	go (*box[int]).serve(s, 1)
	go func() { defer finish(1); add(1) }()
	go func() {
		defer finish(1)
		add(1)
	}()
	all.Wait()
}

func main() {
	table.Store(1, 1)
	deferred()
	panics()
	values()
	global(1)
	started()
}
