package main

import (
	"fmt"
	"plugin"
	"runtime"
	"sync"
)

var here [2]bool

//go:norace
func meet(i int) {
	for here[i] = true; !here[1-i]; {
		runtime.Gosched()
	}
}

func find(p *plugin.Plugin, name string) plugin.Symbol {
	found, err := p.Lookup(name)
	if err != nil {
		panic(err)
	}
	return found
}

func main() {
	p, err := plugin.Open("./plug.so")
	if err != nil {
		panic(err)
	}
	box := find(p, "New").(func() interface{})()
	step := find(p, "Step").(func(interface{}, func()))
	var wg sync.WaitGroup
	for i := 0; i < 2; i++ {
		wg.Add(1)
		go func(i int) { defer wg.Done(); step(box, func() { meet(i) }) }(i)
	}
	wg.Wait()
	find(p, "Own").(func())()
	fmt.Println("done")
}
