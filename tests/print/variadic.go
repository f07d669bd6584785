package p

func a(xs ...int)  {}
func b(a int , xs ... string) int { return len(xs) }
func c(int, ...[]string) {}
func d(a, b int, xs ...map[string]*T,) (c int, d error) {
	a(xs ...)
	b(s[1:]...)
	c(1, f(x)...,)
	a(1 ...)
	a(x, 1 ...)
	a(x+1 ...)
	a(x*(y+1)...)
	a(-1 ...)
	a(-(x+1)...)
	a(*1 ...)
	a((1)...)
	a(x[1]...)
	a(1, x...)
	a('1'...)
	a("1"...)
	a(([]int)...)
	s = append(s, t...)
	if a(T{1}...) {}
	defer b(1, x...)(y...)
}
