package p

func operands() {
	x = ([]int).f
	x = ([]int)[i]
	x = ([]int)
	x, y = ([]int), (map[K]V)
	x = ([]int) == a
	x = a == (struct{})
	x = -([]int)
	x = *([]int)
	x = f(a == ([]int))
	x = f(([]int) == a)
	x = f(a == ([]int), -(map[K]V))
	x = f(*([]int))
	x = (*([]int))(p)
	x = a[([]int)]
	x = a[([]int):([]int)]
	x = []T{([]int)}
	x = []T{([]int), ([]int)}
	x = []T{k: ([]int), v: a}
	x = []T{([]int): a}
	x = ([]int)(a)
	x = ([]int)(([]int)(a))
	switch a {
	case ([]int), ([]int):
	}
	if a == (([]int)) {}
	return ([]int), ([]int)
}
