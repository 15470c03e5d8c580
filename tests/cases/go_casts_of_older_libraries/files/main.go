package main

import (
	"fmt"
	"sync"
	"unsafe"
)

var mu sync.Mutex
var page = make([]byte, 64)

func put(n int) {
	mu.Lock()
	defer mu.Unlock()
	(*[1 << 20]uint32)(unsafe.Pointer(&page[0]))[n]++
}

func main() {
	var all sync.WaitGroup
	for n := 0; n < 4; n++ {
		all.Add(1)
		go func(n int) { defer all.Done(); put(n) }(n)
	}
	all.Wait()
	fmt.Println(page[:16])
}
