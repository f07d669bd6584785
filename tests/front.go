// Package front is cut off at each of its bytes.
package front

import "example.com/m/a"
import (
	b "example.com/m/b"
	`c`
)

const (
	One = iota + 0x1F
	Two
)

var rows, names = []a.Row{{1, "x\u00e9"}, {2, `y`}}, map[string]int{"z": 'q'}

type Pair struct {
	left, right *b.Node
}

func (p *Pair) Sum(n int, rest []int) (total int, ok bool) {
	for i, row := range rest {
		if x := row &^ 3; x > n || i == 0 {
			total += x << 1
			continue
		} else if !ok {
			p.left, p.right = p.right, p.left
		}
		switch {
		case x != 0, n >= 1:
			defer func() { println("é") }()
		default:
			return -total, ok
		}
	}
	return total % 7, true
}

/* the
end */
