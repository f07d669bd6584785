package p

func literals() {
	x = 0
	x = 0x_1F
	x = 0B101
	x = 1_000
	x = 0755
	x = 'a'
	x = '\n'
	x = '\u00e9'
	x = "a\tb"
	x = "é"
	x = `raw \n "q"`
	x = T{}
	x = T{ }
	x = T{1,2,}
	x = T{a:1,b : 2}
	x = p.T{a: 1}
	x = []int{1, 2 ,3}
	x = [][]int{{1},{2,3},{}}
	x = map[string]int{"a":1,"b":2}
	x = map[T]T{{1}:{2},{a:3}:T{4}}
	x = []T{0: {a: 1}, 5: {}}
	x = []T{[]int{1}, []int(a), []int{}}
	x = &T{a: &T{}}
	x = T{1}.a
	x = T{f(func() {}())}
	x = func() {}()
	x = func() { f() }()
	x = func(a, b int, c string) (int, string) { return a, c }(1, 2, "c")
	x = func(int, *T) *T { return nil }(1, 2)
	x = func() (r int) { r = 1; return }()
	x = func(_ int) (a, b int) { return }(0)
	x = func() struct{} { return struct{}{} }()
	x = f(func() int {
		if a {
			return func() int { return 1 }()
		}
		return 2
	}(), b)
}

func elements() {
	x = a[i]
	x = a[i+1]
	x = a[i:j]
	x = a[:]
	x = a[i:]
	x = a[:j]
	x = a[i+1:len(a)-1]
	x = a[b[c]]
	x = f()
	x = f(a)
	x = f(a,b,)
	x = f(g(h()))(i)
	x = a.b.c.d(e)
}
