package p

func levels() {
	x = (a+b)*c
	x = (a*b)+c
	x = a*b+c
	x = a+b+c
	x = a+(b+c)
	x = a-(b-c)
	x = a*(b*c)
	x = (a+b)
	x = ((a))*((b))
	x = a<<(b+1)
	x = a<<b+1
	x = a&^b|c
	x = a&^(b|c)
	x = a==b&&c!=d||e<f
	x = a&&(b||c)
	x = (a&&b)||c
	x = (a<b)==(c<d)
	x = a%b/c
	x = a/(b%c)
}

func operators() {
	x = -a
	x = -(-a)
	x = +(+a)
	x = -(+a)
	x = &(&a)
	x = &(^a)
	x = ^(&a)
	x = ^^a
	x = !!a
	x = !(a&&b)
	x = -(a*b)
	x = -a*b
	x = a- -b
	x = a+ +b
	x = a- -(-b)
	x = a& &b
	x = a& ^b
	x = **a
	x = *(a)+b
	x = a* *b
	x = *(a*b)
	x = &*a
	x = -*a
	x = *a[i]
	x = (*a)[i]
	x = *f(x)
	x = (*f)(x)
	x = &a.b
	x = (&a).b
	x = -a.b
	x = (-a).b
	x = (a+b).c
	x = (a+b)[i]
	x = (a+b)[i:j]
	x = (a+b)(c)
	x = (!a)(b)
	x = 1 .f
	x = (1).f
	x = (0x1f).f
	x = 'c'.f
	x = "s".f
	x = "s"[0]
	x = (*T)(p)
	x = (**T)(p)
	x = (*p.T)(q)
	x = (*[]int)(p)
	x = (T)(p)
	x = (p.T)(q)
	x = (a).b.c
	x = (a.b)(c)[d].e[f:]
}
