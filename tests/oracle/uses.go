package main

import (
	"bytes"
	"fmt"
	"go/ast"
	"go/parser"
	"go/token"
	"os"
)

// readable gives the text of a file without the functions in which a literal of a function is no callee: the language
// has none of these, so no tree is read where they stand.
func readable(path string) []byte {
	text, err := os.ReadFile(path)
	fail(err)
	files := token.NewFileSet()
	file, err := parser.ParseFile(files, path, text, parser.ParseComments)
	fail(err)
	var kept bytes.Buffer
	from := 0
	for _, d := range file.Decls {
		if f, ok := d.(*ast.FuncDecl); ok && hasFunctionValue(f) {
			kept.Write(text[from:files.Position(f.Pos()).Offset])
			from = files.Position(f.End()).Offset + len("\n\n")
		}
	}
	kept.Write(text[from:])
	return kept.Bytes()
}

func hasFunctionValue(f *ast.FuncDecl) bool {
	called, found := map[ast.Node]bool{}, false
	ast.Inspect(f, func(n ast.Node) bool {
		switch n := n.(type) {
		case *ast.CallExpr:
			called[n.Fun] = true
		case *ast.FuncLit:
			found = found || !called[n]
		}
		return true
	})
	return found
}

// writeUses writes the functions of a source that the language has, and beside them a line for each use of a name in
// them: where it stands, the name, and what it means.
func writeUses(source, out string) {
	fail(os.WriteFile(out+".go", readable(source), 0o644))
	c := checkFile(out + ".go")
	var rows bytes.Buffer
	for _, d := range c.file.Decls {
		if g, ok := d.(*ast.GenDecl); ok && g.Tok == token.IMPORT {
			continue
		}
		uses, _ := c.uses(d)
		for _, id := range uses {
			fmt.Fprintf(&rows, "%d %s %s\n", c.offset(id.Pos()), id.Name, c.words(id))
		}
	}
	fail(os.WriteFile(out+".txt", rows.Bytes(), 0o644))
}

// words says what the identifier means, a declaration by where it stands.
func (c *checked) words(id *ast.Ident) string {
	o := c.object(id)
	if o == nil {
		return "nothing"
	}
	kind := "local"
	switch {
	case isImport(o):
		kind = "import"
	case isPredeclared(o):
		return "predeclared"
	case o.Parent() == c.pkg.Scope():
		kind = "package"
	}
	return fmt.Sprintf("%s %d", kind, c.offset(o.Pos()))
}
