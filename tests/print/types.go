package p

type (
	A int
	B = p.T
	C *int
	D **p.T
	E []int
	F [][]*T
	G map[string]int
	H map[K][]map[p.K]*V
	I struct{}
	J struct { a int }
	K struct {
		a, b int
		c []struct { d, e string; f *J }
	}
	L (int)
	M *(T)
	N [](map[(string)](int))
)

type O struct { }

type P = map[struct{a int}]struct{b, c p.T}

func operands() {
	x = []int(y)
	x = ([]int)(y)
	x = map[string]int(y)
	x = struct{a int}(y)
	x = make([]int, 3)
	x = make(([]int), 3)
	x = make(map[string]int)
	x = new(struct{a, b int})
	x = f(x, []int)
	x = f([]int, []string)
	x = f(*[]int)
	x = []T{}
	x = map[K]V{}
	x = struct{}{}
	x = []struct{a int}{{1}, {2}}
}
