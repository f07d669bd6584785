package main

import (
	"example.com/lib"
)

func header() {
	println(lib.Version, lib.Width)
}

func main() {
	println(lib.Margin, lib.MaxWidth)
}
