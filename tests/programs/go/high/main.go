// Before Go begins, C takes the lower end of the addresses where the heap would lie. So the heap lies 64 GB higher.
package main

/*
#include <stdlib.h>
#include <sys/mman.h>

__attribute__((constructor)) static void takeTheLowerHalf(void) {
    if (mmap((void *)0xc000000000, 1ul << 36, PROT_NONE, MAP_PRIVATE | MAP_ANONYMOUS | MAP_NORESERVE | MAP_FIXED_NOREPLACE, -1, 0) == MAP_FAILED)
        exit(9);
}
*/
import "C"

import (
	"os"
	"sync"
	"unsafe"
)

type account struct{ money, limit int64 }

func open() *account { return &account{} }

func (a *account) pay() { a.money++ }

func main() {
	it := open()
	if uintptr(unsafe.Pointer(it)) < 0xd000000000 {
		os.Exit(8)
	}
	var both sync.WaitGroup
	both.Add(1)
	go func() {
		it.pay()
		both.Done()
	}()
	both.Wait()
	it.limit = 5
}
