// Two goroutines withdraw from one account of 100. Each withdrawal is allowed, and both together overdraw the account.
package main

import (
	"fmt"
	"runtime"
	"sync"
)

type Account struct {
	mutex sync.Mutex
	money int
}

func (a *Account) Balance() int {
	a.mutex.Lock()
	defer a.mutex.Unlock()
	return a.money
}

func (a *Account) Withdraw(amount, who int) bool {
	if a.Balance() < amount || !approved(who) { // locks, reads, unlocks
		return false
	}
	a.mutex.Lock() // locks again
	defer a.mutex.Unlock()
	a.money -= amount
	return true
}

var asked [2]bool

// approved waits until both withdrawals have asked, so that they overlap in every run. The next comment keeps it out of the log.
//
//go:norace
func approved(who int) bool {
	for asked[who] = true; !asked[1-who]; {
		runtime.Gosched()
	}
	return true
}

func main() {
	account := &Account{money: 100}
	var both sync.WaitGroup
	both.Add(2)
	for who, amount := range []int{70, 60} {
		go func(amount, who int) {
			account.Withdraw(amount, who)
			both.Done()
		}(amount, who)
	}
	both.Wait()
	fmt.Println("balance", account.Balance())
}
