package main

import "example.com/lib"

func main() {
	println(lib.MaxWidth) // the widest line
}
