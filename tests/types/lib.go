package lib

const Wide = 8

const narrow = 1

type P struct{ N, hidden int }

type inner int

type Big map[string]int

func (p *P) Up() { p.N++ }

func (p P) low() int { return p.hidden }

func Twice(a int) int { return a + a }

var Seen int
