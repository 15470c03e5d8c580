// Two withdrawals overlap: each reads the balance under the lock, and writes it under the lock, but not both at once.
package main

import (
	"sync"

	"programs/meet"
)

type Bank struct {
	mu      sync.Mutex
	balance int
}

func (b *Bank) read() int {
	b.mu.Lock()
	defer b.mu.Unlock()
	return b.balance
}

func (b *Bank) write(value int) {
	b.mu.Lock()
	b.balance = value
	b.mu.Unlock()
}

func (b *Bank) withdraw(amount int, mine, other meet.Point) {
	before := b.read()
	mine.Tell()
	other.Await()
	b.write(before - amount)
}

func main() {
	b := &Bank{balance: 100}
	one, two := meet.New(), meet.New()
	var both sync.WaitGroup
	both.Add(2)
	go func() { b.withdraw(20, one, two); both.Done() }()
	go func() { b.withdraw(30, two, one); both.Done() }()
	both.Wait()
	println(b.balance)
}
