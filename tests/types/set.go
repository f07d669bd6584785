package main

type T struct {
	n    int8
	next *T
}

func (t *T) Up() {}

func (t T) Get() int { return 0 }

type B bool

type By []byte

type Str string

type F []int

type U8 uint8

type K struct{ a int }

type H struct{ s []int }

var x int8

var i int

var u uint

var q string

var ok bool

var s []int

var bs []byte

var ts []T

var m map[string]T

var mi map[int8]string

var p *T

var t T

var mb B

var f F

var h H

func f8(a int8) int8 { return a }

func one() int { return 0 }

func two() (int, string) { return 0, "" }

func pair() ([]int, int) { return nil, 0 }

func none() {}

func take(a int, b string) {}

func fresh() T { return T{} }

func main() {}
