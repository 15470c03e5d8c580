package main

import "C"
import "sync"

var mu sync.Mutex
var n int

//export Up
func Up()   { mu.Lock(); n++; mu.Unlock() }
func main() {}
