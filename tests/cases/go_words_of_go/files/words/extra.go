//go:build extra

package main

const tag = "extra"
