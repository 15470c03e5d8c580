// Further programs of this package, by what lies between the last act of a function and its end.
package main

// A test or a jump lies behind the last act. Whichever way the function goes, it only ends.
func endByEither(n int, c chan int) {
	flag.Add(1)
	if n == 0 {
		group.Done()
	} else if n == 1 {
		close(c)
	} else if n == 2 {
		c <- 1
	} else {
		mu.Unlock()
	}
}
func endByType(v any, c chan int) {
	flag.Add(1)
	switch v := v.(type) {
	case int:
		c <- v
	case string:
		close(c)
	case nil:
		group.Done()
	}
}
func endByLoop(of []int, c chan int) {
	for i := range of {
		switch of[i] {
		case 0:
			flag.Add(1)
		case 1:
			c <- 1
			return
		case 2:
			flag.Add(2)
		}
	}
}
func endBySelect(c chan int) {
	flag.Add(1)
	select {
	case c <- 1:
	case <-closing:
	}
}
func endByTry(c chan int) bool {
	flag.Add(1)
	select {
	case c <- 1:
		return true
	default:
		return false
	}
}
func endByDeferredSelect(c chan int) {
	defer func() {
		recover()
		select {
		case c <- 1:
		case <-closing:
		}
	}()
	flag.Add(1)
}
func endByResult(n int, c chan int) (isLarge bool, half float64, words [3]string) {
	flag.Add(1)
	close(c)
	return n > 3 && n < 5, float64(n), words
}

func endAfterTests() {
	for i := 0; i < 100; i++ {
		for _, run := range []func(chan int){
			func(c chan int) { endByEither(1, c) },
			func(c chan int) { endByEither(2, c) },
			func(c chan int) { endByType(1, c) },
			func(c chan int) { endByType("", c) },
			func(c chan int) { endByLoop([]int{0, 2, 1, 0}, c) },
			endBySelect,
			func(c chan int) { endByTry(c) },
			endByDeferredSelect,
			func(c chan int) { endByResult(i, c) },
		} {
			c := make(chan int, 1)
			go run(c)
			<-c
		}
		group.Add(2)
		go endByEither(0, nil)
		go endByType(nil, nil)
		group.Wait()
		mu.Lock()
		go endByEither(3, nil)
		mu.Lock()
		mu.Unlock()
	}
}

// The sender waits for its receiver, who has the event of the send.
func endBySendOf[T any](c chan T) {
	var message T
	flag.Add(1)
	c <- message
}
func endBySelectOf[T any](c chan T) {
	var message T
	flag.Add(1)
	select {
	case c <- message:
	case <-closing:
	}
}
func endByDeferredSend[T any](c chan T) {
	var message T
	defer func() { c <- message }()
	flag.Add(1)
}
func park[T any](end func(chan T), size int, how string) {
	var message T
	c := make(chan T, size)
	for n := 0; n < size; n++ {
		c <- message
	}
	go end(c)
	blocked(1, how)
	for n := 0; n <= size; n++ {
		<-c
	}
}
func parkOf[T any](size int) {
	park(endBySendOf[T], size, "chan send")
	park(endBySelectOf[T], size, "select")
	park(endByDeferredSend[T], size, "chan send")
}
func endParked() {
	for i := 0; i < 50; i++ {
		for size := 0; size < 3; size++ {
			parkOf[int](size)
			parkOf[struct{}](size)
		}
	}
}

// A panic calls the function that recovers from it and has the last act, or that follows.
func endByRecovered(c chan int) {
	defer func() {
		if recover() != nil {
			flag.Add(1)
		}
		c <- 1
	}()
	deeper(3)
}
func endByThenClosed(c chan int) {
	defer close(c)
	defer func() { recover() }()
	deeper(3)
}
func endByDeferred(c chan int) {
	defer func() {
		defer close(c)
		recover()
	}()
	deeper(3)
}

// But this one has deferred a change, too.
func sendThenChange(c chan int) {
	n := flag.Load()
	defer func() { mark(0); after(1); flag.Store(n + 1) }()
	defer func() { recover(); c <- 1 }()
	deeper(3)
}
func recoveredGoesOn() {
	c := make(chan int, 1)
	both(func() { sendThenChange(c) }, func() { changeBetween(flag.Store) })
}

// Receives as soon as there is something.
func poll(c chan int) {
	for {
		select {
		case <-c:
			return
		default:
		}
	}
}
func endRecovered() {
	for i := 0; i < 400; i++ {
		for _, run := range []func(chan int){endByRecovered, endByThenClosed, endByDeferred} {
			c := make(chan int, 1)
			go run(c)
			poll(c)
		}
	}
}

func init() {
	words["ends-recovered"] = endRecovered
	words["recovered-goes-on"] = recoveredGoesOn
	words["ends-after-tests"] = endAfterTests
	words["ends-parked"] = endParked
}
