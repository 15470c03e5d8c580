// Package pay is the first version of a package whose path ends with its version.
package pay

// Start has a goroutine call the function.
func Start(f func(), done chan<- bool) {
	go func() {
		f()
		done <- true
	}()
}
