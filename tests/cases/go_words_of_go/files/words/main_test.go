package main

import "testing"

func TestAdd(t *testing.T) {
	add()
	if count != 1 {
		t.Fatal(count)
	}
}

func TestFails(t *testing.T) { t.Fatal("told to") }
