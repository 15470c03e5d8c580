package main

import "sync"

type box struct {
	mu sync.Mutex
	n  int
}

var mu sync.Mutex
var own int

func (b *box) get() int  { b.mu.Lock(); defer b.mu.Unlock(); return b.n }
func (b *box) set(n int) { b.mu.Lock(); defer b.mu.Unlock(); b.n = n }

func New() interface{} { return new(box) }
func Step(it interface{}, meet func()) {
	n := it.(*box).get()
	meet()
	it.(*box).set(n + 1)
}
func Own()  { mu.Lock(); own++; mu.Unlock() }
func main() {}
