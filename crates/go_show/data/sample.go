// Package sample has a token of each kind.
package sample

import "fmt"

type Größe struct{ a, b int }

const mask = 0x_FF &^ 0b1010 | 0o17<<2

/* A comment
that holds a newline */
var pi, i = 3.14e+0, .5i

func (g *Größe) sum(xs ...int) (total int) {
	for n := 0; n < len(xs); n++ {
		if xs[n] >= mask && n != 1 {
			total += xs[n] // so far
			continue
		}
		switch 'ß' {
		case '\'', '\x41', '\u00e4', '\U0010FFFF':
			return
		}
	}
	fmt.Println("a\t\"b\"\377", `raw
text`, ^total, !true)
	return g.a*total - 1 /* end */
}
