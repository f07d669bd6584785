// Compares tests/relations.txt with go/types: which types are identical, which values are assignable and which are only
// convertible. Run it at the top of the repository, with Go 1.19:
//
//	go run tests/oracle/relations/main.go
//
// It prints each pair on which the two differ. No number is converted to a string in the table.
package main

import (
	"fmt"
	"go/ast"
	"go/constant"
	"go/parser"
	"go/token"
	"go/types"
	"os"
	"strings"
)

const declared = `package main

type D int
type P []string
type Q []string
type R struct{ a, b int }
type S struct{ a, c int }
`

type row struct {
	name, value, signs string
	of                 types.TypeAndValue
}

func main() {
	rows := read()
	wrong := 0
	for _, from := range rows {
		for i, to := range rows[:len(from.signs)] {
			if sign := relation(from, to.of.Type); sign != from.signs[i] {
				wrong++
				fmt.Printf("%s to %s: %c, not %c\n", from.name, to.name, sign, from.signs[i])
			}
		}
	}
	if wrong > 0 {
		os.Exit(1)
	}
}

func relation(from row, to types.Type) byte {
	of := from.of.Type
	switch {
	case types.Identical(of, to):
		return '='
	case types.AssignableTo(of, to) && fits(from, to):
		return 'a'
	case isNumber(of) && isString(to):
		return '-'
	case types.ConvertibleTo(of, to):
		return 'c'
	}
	return '-'
}

// fits is whether an untyped constant is one of the type; AssignableTo asks only of its kind.
func fits(from row, to types.Type) bool {
	basic, ok := from.of.Type.(*types.Basic)
	if !ok || basic.Info()&types.IsUntyped == 0 || from.of.Value == nil {
		return true
	}
	under, ok := to.Underlying().(*types.Basic)
	return ok && (from.of.Value.Kind() == constant.Int) == (under.Info()&types.IsInteger != 0)
}

func isNumber(t types.Type) bool {
	basic, ok := t.Underlying().(*types.Basic)
	return ok && basic.Info()&types.IsNumeric != 0
}

func isString(t types.Type) bool {
	basic, ok := t.Underlying().(*types.Basic)
	return ok && basic.Info()&types.IsString != 0
}

func read() []row {
	text, err := os.ReadFile("tests/relations.txt")
	if err != nil {
		fatal(err)
	}
	home := packageOf()
	var rows []row
	for _, line := range strings.Split(strings.TrimSpace(string(text)), "\n") {
		fields := strings.Split(line, "\t")
		of, err := types.Eval(token.NewFileSet(), home, token.NoPos, fields[1])
		if err != nil {
			fatal(err)
		}
		rows = append(rows, row{fields[0], fields[1], fields[2], of})
	}
	return rows
}

func packageOf() *types.Package {
	files := token.NewFileSet()
	tree, err := parser.ParseFile(files, "types.go", declared, 0)
	if err != nil {
		fatal(err)
	}
	home, err := new(types.Config).Check("main", files, []*ast.File{tree}, nil)
	if err != nil {
		fatal(err)
	}
	return home
}

func fatal(err error) {
	fmt.Fprintln(os.Stderr, err)
	os.Exit(2)
}
