// Package sample: the examples of the Go specification, Declarations and scope, in functions that use what they
// declare.
package sample

type Point struct {
	x int
	y int
}

type (
	nodeList = []*Node
	Polar    = polar
)

type Node struct{ next *Node }

type polar struct{ r int }

func nextField(str string, at int) (string, int) { return str[at:], at + 1 }

func coord(p Point) (int, int, int) { return p.x, p.y, 0 }

// Constant declarations.
func constants() int {
	const (
		size int64 = 1024
		eof        = -1
	)
	const a, b, c = 3, 4, "foo"
	return int(size) + eof + a + b + len(c)
}

// Iota.
func counted() int {
	const (
		Sunday = iota
		Monday
		numberOfDays
	)
	const (
		a = 1 << iota
		b = 1 << iota
		c = 3
		d = 1 << iota
	)
	const (
		bit0, mask0 = 1 << iota, 1<<iota - 1
		bit1, mask1
		_, _
		bit3, mask3
	)
	const x = iota
	const y = iota
	return Sunday + Monday + numberOfDays + a + b + c + d + bit0 + mask0 + bit1 + mask1 + bit3 + mask3 + x + y
}

// Alias declarations.
func aliases(n nodeList) Polar { return Polar{r: len(n)} }

// Variable declarations.
func variables() int {
	var i int
	var k = 0
	var x, y int32 = -1, -2
	var (
		j       int
		u, v, s = 2, 3, "bar"
	)
	var re, im = nextField(s, v)
	return i + k + int(x+y) + j + u + im + len(re)
}

// Short variable declarations.
func short(p Point) int {
	i, j := 0, 10
	_, y, _ := coord(p)
	return i + j + y
}

func fields(str string) int {
	field1, offset := nextField(str, 0)
	field2, offset := nextField(str, offset)
	return len(field1) + len(field2) + offset
}

// Function declarations.
func IndexRune(s string, r rune) int {
	for i, c := range s {
		if c == r {
			return i
		}
	}
	return -1
}

func min(x int, y int) int {
	if x < y {
		return x
	}
	return y
}

// Method declarations.
func (p *Point) Scale(factor int) {
	p.x *= factor
	p.y *= factor
}
