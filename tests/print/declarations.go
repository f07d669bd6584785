package p

import "fmt"
import f "example.com/f"
import (
	"os"
	_ "embed"
)
import ()

const a = 1
const b, c int = 1, 2
const (
	d = iota
	e
	f, g
)
const ()
const ( h = (1 + 2) * 3; i string = "i" )

var j int
var k, l = 1, f(2)
var m []int = nil
var (
	n int
	o, p = 1, 2
	q map[string]int = map[string]int{"a": 1}
)
var ()
var r = func(x int) int { return x }(1)

func s() {}
func t(a int, b string) {}
func u(a, b int, _ string) (int) { return a }
func (v T) w() {}
func (v *T) x(a int,) (b, c int) { return }
func (T) y() (int, string) { return 1, "" }
func (*T) z(int, []p.T, *T) (_ map[string]int) { return nil }
func local() {
	const a = 1
	const ( b = 2; c = 3 )
	var d int
	var (
		e, f string = "e", "f"
		g = func() {
			f()
		}()
	)
	var ()
}
