// Compares the rows of tests/types/rows.txt with go/types: whether each file is typed beside tests/types/set.go, where
// it may import tests/types/lib.go as "m/lib", and which declaration is named where it isn't. Run it at the top of the
// repository, with Go 1.19:
//
//	go run tests/oracle/table/main.go
//
// It prints each row on which the two differ though the row doesn't say so, and each that says so without need, then a
// line of counts.
package main

import (
	"bufio"
	"errors"
	"fmt"
	"go/ast"
	"go/parser"
	"go/token"
	"go/types"
	"os"
	"strings"
)

const folder = "tests/types/"

func main() {
	rows, err := os.Open(folder + "rows.txt")
	if err != nil {
		fatal(err)
	}
	alike, narrower, wrong := 0, 0, 0
	for lines, number := bufio.NewScanner(rows), 1; lines.Scan(); number++ {
		fields := strings.SplitN(lines.Text(), "\t", 3)
		if len(fields) < 3 {
			continue
		}
		answer, err := answerOf(fields[2])
		same := answer == fields[0]
		switch {
		case err != nil:
			fatal(fmt.Errorf("line %d: %w", number, err))
		case same && fields[1] == "=":
			alike++
		case !same && strings.HasPrefix(fields[1], "- "):
			narrower++
		default:
			wrong++
			fmt.Printf("line %d: %s\t%s\n", number, answer, fields[2])
		}
	}
	fmt.Printf("%d alike, %d different as the row says, %d wrong\n", alike, narrower, wrong)
	if wrong > 0 {
		os.Exit(1)
	}
}

func fatal(err error) {
	fmt.Fprintln(os.Stderr, err)
	os.Exit(2)
}

// answerOf is `typed`, or the place of the declaration that is named: the first whose header has an error, else the
// first function with an error in its body.
func answerOf(text string) (string, error) {
	files := token.NewFileSet()
	lib, err := parsed(files, folder+"lib.go", nil)
	if err != nil {
		return "", err
	}
	set, err := parsed(files, folder+"set.go", nil)
	if err != nil {
		return "", err
	}
	row, err := parsed(files, "main.go", []byte("package main\n\n"+unescaped(text)+"\n"))
	if err != nil {
		return "", err
	}
	config := types.Config{GoVersion: "go1.19", Error: func(error) {}}
	libPackage, err := config.Check("m/lib", files, []*ast.File{lib}, nil)
	if err != nil {
		return "", err
	}
	var at []token.Pos
	config.Importer = only{libPackage}
	config.Error = func(err error) {
		var it types.Error
		if errors.As(err, &it) && !strings.HasPrefix(it.Msg, "\t") {
			at = append(at, it.Pos)
		}
	}
	config.Check("m", files, []*ast.File{row, set}, nil)
	return place(files, row, at), nil
}

func parsed(files *token.FileSet, name string, text any) (*ast.File, error) {
	if text == nil {
		return parser.ParseFile(files, name, nil, 0)
	}
	return parser.ParseFile(files, name, text, 0)
}

func unescaped(text string) string {
	return strings.NewReplacer(`\n`, "\n", `\t`, "\t", `\\`, `\`).Replace(text)
}

type only struct{ lib *types.Package }

func (it only) Import(path string) (*types.Package, error) {
	if path == "m/lib" {
		return it.lib, nil
	}
	return nil, fmt.Errorf("no package %s", path)
}

func place(files *token.FileSet, row *ast.File, at []token.Pos) string {
	if len(at) == 0 {
		return "typed"
	}
	body := "elsewhere"
	for _, part := range parts(row) {
		for _, pos := range at {
			if pos < part.start || pos >= part.end {
				continue
			}
			name := files.Position(part.start)
			answer := fmt.Sprintf("%d:%d", name.Line, name.Column)
			if part.body == token.NoPos || pos < part.body {
				return answer
			}
			if body == "elsewhere" {
				body = answer
			}
		}
	}
	return body
}

// part is an import spec, a member of a group, or another ungrouped declaration; of a function also where its body
// begins.
type part struct{ start, end, body token.Pos }

func parts(row *ast.File) []part {
	var all []part
	for _, decl := range row.Decls {
		switch it := decl.(type) {
		case *ast.FuncDecl:
			all = append(all, part{it.Pos(), it.End() + 1, it.Body.Pos()})
		case *ast.GenDecl:
			if !it.Lparen.IsValid() && it.Tok != token.IMPORT {
				all = append(all, part{it.Pos(), it.End() + 1, token.NoPos})
				continue
			}
			for _, spec := range it.Specs {
				all = append(all, part{spec.Pos(), spec.End() + 1, token.NoPos})
			}
		}
	}
	return all
}
