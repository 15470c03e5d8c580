// The program of lost, with one lock round both.
package main

import "sync"

type Bank struct {
	mu      sync.Mutex
	balance int
}

func (b *Bank) withdraw(amount int) {
	b.mu.Lock()
	defer b.mu.Unlock()
	before := b.balance
	b.balance = before - amount
}

func main() {
	b := &Bank{balance: 100}
	var both sync.WaitGroup
	for i := 0; i < 20; i++ {
		both.Add(1)
		go func() {
			defer both.Done()
			for i := 0; i < 100; i++ {
				b.withdraw(1)
			}
		}()
	}
	both.Wait()
	println(b.balance)
}
