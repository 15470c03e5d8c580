package main

import (
	"fmt"
	"os"

	"example.org/dep"
)

var (
	version = "none"
	count   int
)

func add() { count++ }

func main() {
	add()
	fmt.Println(version, tag, dep.Name(), os.Args[1:])
}
