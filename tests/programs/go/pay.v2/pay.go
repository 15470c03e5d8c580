// Package pay has a path whose last element has a dot.
package pay

import (
	"sync"

	old "programs/pay.v1"
)

// Bank has money.
type Bank struct {
	mutex sync.Mutex
	money int
}

var total int

func init() { total = 1 }

// Open makes a bank.
func Open() *Bank { return &Bank{money: 1} }

// Pay adds to the money.
func (b *Bank) Pay() {
	b.mutex.Lock()
	defer b.mutex.Unlock()
	b.money++
	total++
}

// PayLater has the other version pay by a literal, with which a goroutine starts.
func (b *Bank) PayLater(done chan<- bool) {
	old.Start(func() {
		b.Pay()
		b.Pay()
	}, done)
}
