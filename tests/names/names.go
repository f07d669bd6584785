// Package sample: each function shows one rule of scopes.
package sample

import (
	"m/a"
	other "m/b"
	_ "m/c"
)

const X, Y = 1, X + 1

const (
	First = iota
	Second
	_
)

var count = len(name) + a.N

var name string = other.Name

type Pair struct {
	left  int
	right int
	name  string
}

type List = []Pair

type Tree struct {
	left *Tree
	m    map[string]Pair
}

// The name of a method is no name of the package block.
func (p Pair) X(y int) int { return p.left + y + X }

func (Tree) size() int { return Y }

func (p *Pair) p() int { return p.right }

// Parameters and results are declared in the body.
func f01(x int, y int) (z int) { z = x + y; return z }

func f02(int int) int { return X }

func f03(a int, b Pair) int { return a + b.left }

func f04(_ int, _ string) (_ int, n int) { _ = n; return X, n }

func f05(string string) (len int) { return len + X }

// A scope begins after its own spec.
func f06() int {
	X := X
	return X
}

func f07() int {
	var X = X + 1
	return X
}

func f08() int {
	const X = X + Y
	return X
}

func f09() int {
	var (
		y      = X
		z      = y
		y2, z2 = z, y
	)
	return z + y2 + z2
}

func f10() int {
	const (
		k = iota
		l
		m = k + l
	)
	return m
}

// Blocks.
func f12(x int) int {
	{
		x := x + 1
		_ = x
	}
	return x
}

func f13(x int) int {
	{
		_ = x
		x := 2
		{
			x := x
			x++
		}
		_ = x
	}
	return x
}

func f14() int {
	x := 1
	{
		x = 2
		y := x
		x := y
		_ = x
	}
	return x
}

// Redeclaration.
func f15() int {
	x, y := 1, 2
	x, z := y, x
	return x + y + z
}

func f16(x int) int {
	x, y := 2, x
	return x + y
}

func f17(x int) int {
	{
		x, y := 2, x
		_ = y
		x, w := 3, x
		_ = w
	}
	return x
}

func f18() (r int) {
	r, s := 1, r
	return r + s
}

func f19() int {
	_, x := 1, 2
	_, y := x, x
	return y
}

// if chains.
func f20(x int) int {
	if x := x + 1; x > 2 {
		return x
	} else if y := x; y > x {
		return x + y
	} else {
		return x - y
	}
}

func f21(x int) int {
	if x := 1; x == 1 {
		x := 2
		_ = x
	} else if x := x; x == 2 {
		_ = x
	} else {
		x = 3
	}
	return x
}

func f22(ok bool) bool {
	if ok := !ok; ok {
		return ok
	}
	return ok
}

// for.
func f23(n int) int {
	s := 0
	for i := 0; i < n; i++ {
		i := i
		s += i
	}
	return s
}

func f24(i int) int {
	for i := i; i > 0; i-- {
		_ = i
	}
	return i
}

func f25(i int) int {
	for i = 0; i < 3; i++ {
	}
	for i < 9 {
		i := i
		_ = i
	}
	return i
}

func f26(xs []int) int {
	s := 0
	for i, x := range xs {
		s += i * x
		x := s
		_ = x
	}
	return s
}

func f27(xs []int) int {
	for xs := range xs {
		_ = xs
	}
	return len(xs)
}

func f28(xs []int, i int) int {
	for i = range xs {
		_ = i
	}
	for _, i = range xs {
	}
	for range xs {
		i := i
		_ = i
	}
	return i
}

// switch.
func f29(x int) int {
	switch x := x + 1; x {
	case x:
		x := x
		_ = x
	case x + 1, X:
		y := x
		_ = y
	default:
		return x
	}
	return x
}

func f30(y int) int {
	switch {
	case y > 1:
		y := 1
		_ = y
	case y > 2:
		return y
	}
	switch y {
	}
	return y
}

// Labels are no names of their own.
func f31(x int) int {
x:
	for {
		if x > 1 {
			break x
		}
		x++
		continue x
	}
	return x
}

func f32() int {
X:
	for i := 0; ; i++ {
		if i == X {
			break X
		}
	}
	return X
}

func f33() int {
	x := 0
L:
	for x := x; x < 2; x++ {
		continue L
	}
	return x
}

// Predeclared names are declared outside of all.
func f34() int {
	len := 3
	true := false
	_ = true
	return len
}

func f35(nil int) int {
	var append = nil
	return append
}

func f36() bool {
	iota := 1
	k := iota
	return k == 0
}

// Imports.
func f37() int { return a.N + other.M }

func f38() int {
	a := a.N
	return a
}

func f39(other Pair) int { return other.left + a.N }

func f40(x int) (other.T, int) { return other.T{}, x }

// Keys and names after a dot.
func f41(left int) Pair { return Pair{left: left, right: left, name: name} }

func f42(name string) map[string]int { return map[string]int{name: X, "x": Y} }

func f43(i int) []int { return []int{X: 1, i, Y + 3: X} }

func f44(x Pair) List { return List{{left: 1}, {x.left, x.right, x.name}} }

func f45(left *Tree) *Tree { return left.left.left }

// Function literals.
func f47(x int) int {
	return func(y int) int { return func(x int) int { return x + y }(x) }(x)
}

func f48(x int) int {
	x = func() int { y := x; x := y; return x }()
	if func(x int) bool { return x > 0 }(x) {
		x := x
		_ = x
	}
	return x
}

func f49(xs []int) int {
	for i, x := range func(x int) []int { return []int{x} }(len(xs)) {
		_ = func(i int) int { return i + x }(i)
	}
	defer func() { _ = xs }()
	return cap(xs)
}

func f50(p *Pair) int {
	X, q := p.right, *p
	p = &q
	return X
}
