package p

func simple() {
	;
	;;
	f()
	x.y()
	x++
	x[i]--
	x = 1
	x, y = y, x
	x += 1; x -= 1; x *= 2; x /= 2; x %= 2
	x &= 1; x |= 1; x ^= 1; x <<= 1; x >>= 1; x &^= 1
	x := 1
	x, y := f(), g()
	a[i], b.c, *d = 1, 2, 3
	defer f(x)
	defer func() { f() }()
	return
}

func results() (int, error) {
	return 1, (nil)
}

func empty() {}

func blank() {


}

func blocks() {
	{}
	{ {} }
	{
		f()
		{
			g()
		}
	}
}

func choices() {
	if a {}
	if a { f() }
	if (a) { f() } else { g() }
	if a { f() } else if b { g() } else if c {} else { h() }
	if x := f(); x > 0 { g(x) }
	if x, y := f(), g(); x { } else if y := x; y { }
	if f(); a { }
	if a { if b { f() } else { g() } }
}

func loops() {
	for {}
	for { f() }
	for a { f() }
	for i := 0; i < 10; i++ { f(i) }
	for ; i < 10; i++ {}
	for i := 0; ; i++ {}
	for i := 0; i < 10; {}
	for ; a; {}
	for ;; {}
	for ;; i++ {}
	for i := 0;; {}
	for range a {}
	for i := range a {}
	for i, v := range f(a) { g(i, v) }
	for i = range a {}
	for a[i], b.c = range (d) {}
	for i, j := 0, 1; i < j && !a; i, j = i+1, j-1 { f(); break }
}

func switches() {
	switch {}
	switch a {}
	switch {
	case a: f()
	case b, c:
		f(); g()
	default:
	}
	switch a := f(); a {
	default:
		f()
	case 1:
	case 2, 3: {
			g()
		}
	}
	switch f(); {
	case a > b: return
	}
	switch x { case 1: switch y { case 2: f() } }
	switch x {
	case 1:
		;
	}
}

func labels() {
L:
	for a {
		if b { continue L }
		break L
	}
M: f()
N:
	;
	for { break }
	for { continue }
O: P: g()
Q: {
	h()
}
R:
}
