package p

func headers() {
	if q == (P{1}) {}
	if (P{1}) == q {}
	if x := (P{}); x {}
	if f(P{1}) {}
	if a[P{}] {}
	if ([]int{1})[0] {}
	if []int{1}[0] {}
	if (P{1}).a {}
	if (p.P{}).a() {}
	if !(P{}) {}
	if *(&(P{})) {}
	if func() bool { return P{} == q }() {}
	if x.f(P{}) == (P{}) { x = P{} }
	for x := (P{}); x != (P{1}); x = (P{2}) {}
	for x = range (P{}) {}
	for i[P{}] = range f(P{}) {}
	switch (P{}) {
	case P{}, p.P{1}:
	}
	switch x := (P{}); (x) {}
	switch f() == (struct{}{}) {}
	if struct{}{} == x {}
	if m == (map[P]P{{}: P{}}) {}
	if a == f([]int) {}
	if a == ([]int)(b) {}
	if (P{}.a) {}
	q = (P{1})
	return (P{})
}
