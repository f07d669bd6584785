package main

import (
	"fmt"
	"go/ast"
	"go/parser"
	"go/token"
	"go/types"
	"os"
	"path/filepath"
	"sort"
	"strings"
)

// The predeclared names in the order of the universe block.
var universe = []string{"bool", "byte", "int", "int8", "int16", "int32", "int64", "rune", "string", "uint", "uint8",
	"uint16", "uint32", "uint64", "true", "false", "iota", "nil", "append", "cap", "copy", "delete", "len", "make",
	"new", "panic", "print", "println", "recover"}

// packages gives each import a package with the same names.
type packages struct{}

func (packages) Import(path string) (*types.Package, error) {
	p := types.NewPackage(path, path[2:])
	add := func(o types.Object) { p.Scope().Insert(o) }
	add(types.NewVar(token.NoPos, p, "N", types.Typ[types.Int]))
	add(types.NewVar(token.NoPos, p, "M", types.Typ[types.Int]))
	add(types.NewVar(token.NoPos, p, "Name", types.Typ[types.String]))
	t := types.NewTypeName(token.NoPos, p, "T", nil)
	types.NewNamed(t, types.NewStruct(nil, nil), nil)
	add(t)
	p.MarkComplete()
	return p, nil
}

// checked is a file with what go/types says about its names.
type checked struct {
	trees
	file             *ast.File
	pkg              *types.Package
	info             types.Info
	members, imports []string
}

func checkFile(path string) *checked {
	c := &checked{}
	c.files = token.NewFileSet()
	var err error
	c.file, err = parser.ParseFile(c.files, path, nil, 0)
	fail(err)
	c.info = types.Info{Uses: map[*ast.Ident]types.Object{}}
	config := types.Config{Importer: packages{}, Error: func(err error) { fail(err) }}
	c.pkg, err = config.Check("sample", c.files, []*ast.File{c.file}, &c.info)
	fail(err)
	c.members, c.imports = declaredNames(c.file)
	return c
}

// uses gives the identifiers of a declaration that use a name, in their order: no fields, methods and labels, and of a
// qualified name the package alone. `_` on a left side uses a name that means nothing. A key of a composite literal of
// a struct is none, but stands in the list of keys.
func (c *checked) uses(d ast.Decl) (uses []*ast.Ident, keys map[*ast.Ident]bool) {
	skip := map[*ast.Ident]bool{}
	keys = map[*ast.Ident]bool{}
	ast.Inspect(d, func(n ast.Node) bool {
		switch n := n.(type) {
		case *ast.SelectorExpr:
			skip[n.Sel] = true
		case *ast.KeyValueExpr:
			if id, ok := n.Key.(*ast.Ident); ok {
				keys[id] = true
			}
		case *ast.Ident:
			if skip[n] {
				return true
			}
			switch o := c.info.Uses[n].(type) {
			case nil:
				if n.Name == "_" && c.isAssigned(d, n) {
					uses = append(uses, n)
				}
			case *types.Label:
			case *types.Var:
				if !o.IsField() || keys[n] {
					uses = append(uses, n)
				}
			default:
				uses = append(uses, n)
			}
		}
		return true
	})
	sort.Slice(uses, func(i, j int) bool { return uses[i].Pos() < uses[j].Pos() })
	return uses, keys
}

// isAssigned says whether the identifier stands alone on the left side of `=` or of a range clause with `=`.
func (c *checked) isAssigned(d ast.Decl, id *ast.Ident) bool {
	found := false
	ast.Inspect(d, func(n ast.Node) bool {
		switch n := n.(type) {
		case *ast.AssignStmt:
			for _, x := range n.Lhs {
				found = found || x == id && n.Tok == token.ASSIGN
			}
		case *ast.RangeStmt:
			found = found || n.Tok == token.ASSIGN && (n.Key == id || n.Value == id)
		}
		return true
	})
	return found
}

func index(list []string, name string) int {
	for i, n := range list {
		if n == name {
			return i
		}
	}
	panic(name)
}

// object is what go/types says that the identifier means, or nil.
func (c *checked) object(id *ast.Ident) types.Object {
	o := c.info.Uses[id]
	if v, ok := o.(*types.Var); ok && v.IsField() {
		// a key of a struct's literal: what the name would mean as a use
		_, o = c.pkg.Scope().Innermost(id.Pos()).LookupParent(id.Name, id.Pos())
	}
	return o
}

func isImport(o types.Object) bool {
	_, ok := o.(*types.PkgName)
	return ok
}

func isPredeclared(o types.Object) bool { return o.Parent() == types.Universe || o.Pkg() == nil }

// meaning is what the identifier means, as a term.
func (c *checked) meaning(id *ast.Ident) string {
	o := c.object(id)
	if o == nil {
		return "None"
	}
	if isImport(o) {
		return fmt.Sprintf("(Some (Import %d))", index(c.imports, o.Name()))
	}
	if isPredeclared(o) {
		return fmt.Sprintf("(Some (Universe %d))", index(universe, o.Name()))
	}
	if o.Parent() == c.pkg.Scope() {
		return fmt.Sprintf("(Some (Package %d))", index(c.members, o.Name()))
	}
	from := c.offset(o.Pos())
	return fmt.Sprintf("(Some (Local (at %d %d)))", from, from+len(o.Name()))
}

// declaredNames gives the names of the package block, and those of the imports.
func declaredNames(file *ast.File) (members, imports []string) {
	for _, d := range file.Decls {
		switch d := d.(type) {
		case *ast.FuncDecl:
			if d.Recv == nil {
				members = append(members, d.Name.Name)
			}
		case *ast.GenDecl:
			for _, s := range d.Specs {
				switch s := s.(type) {
				case *ast.ValueSpec:
					for _, n := range s.Names {
						members = append(members, n.Name)
					}
				case *ast.TypeSpec:
					members = append(members, s.Name.Name)
				case *ast.ImportSpec:
					if s.Name != nil {
						imports = append(imports, s.Name.Name)
					} else {
						imports = append(imports, s.Path.Value[3:len(s.Path.Value)-1])
					}
				}
			}
		}
	}
	return members, imports
}

const treeNames = `NameAt, TypeExpr, named, pointer, slice_type, map_type, struct_type, Fields, no_fields, field, Param, Sig, Expr, ident, int_lit, str_lit, composite, selector, index, call, func_lit, type_operand, unary, binary, star, no_exprs, expr_and, no_expr, some_expr, no_elems, elem, plain, braced, no_value, some_value, const_decl, var_decl, eval, step, assign, define, return_, break_, continue_, inner, if_, for_, range_, switch, defer, label, no_stmts, stmt_and, no_stmt, some_stmt, no_block, some_block, nothing, assigns, defines, no_arms, arm, no_cases, case, no_specs, spec`

// writeNames writes, for each declaration of the file, its tree and what go/types says about its names: Table.antt with
// what the checks share, and three files of checks.
func writeNames(path, dir string) {
	c := checkFile(path)
	head := fmt.Sprintf(`-- What each identifier of small functions means, as go/types of Go 1.19 says (Go specification, Declarations and scope).
-- Written by tests/oracle; offsets count from the start of each declaration.
use Rattle.std.proofs.Common.{◌≡◌, ℕ, ◌+◌, length, true, false, List, [], ◌∷◌, map, Option, Some, None, refl, codes}
use Rattle.go_tree.specs.declared.spans.Span.{Span}
use Rattle.go_tree.specs.declared.exprs.Rest.TheVariants.{Plain}
use Rattle.go_tree.specs.declared.operators.UnOp.TheVariants.{Not, Address}
use Rattle.go_tree.specs.declared.operators.BinOp.TheVariants.{Mul, Add, Sub, Eq, Lt, Gt}
use Rattle.go_tree.specs.Tree.{%s}
use Rattle.go_tree.specs.File.{Decl, values, types, func, File}
use Rattle.scope_names.specs.declared.names.Entity.{Entity}
use Rattle.scope_names.specs.declared.names.Entity.TheVariants.{Local, Import, Package, Universe}
`, treeNames)
	shared := fmt.Sprintf(`use Rattle.scope_names.specs.declared.names.FileNames.{FileNames}
use Rattle.scope_names.specs.declared.names.ImportName.{ImportName}
use Rattle.scope_names.specs.Scopes.{meaning_at}
use Rattle.scope_names.specs.Occurrences.{Occurrence, file_uses}

abbrev pub at : ℕ → ℕ → Span
at a b = record { start = a; end = b }

abbrev pub name : ℕ → List ℕ → NameAt Span
name k n = record { span = at k (k + length n); name = n }

abbrev pub param : Span → Option (NameAt Span) → TypeExpr Span → Param Span
param s n t = record { span = s; name = n; rest = false; of = t }

abbrev pub file : Decl Span → File Span
file d = record { package_name = name 0 (codes "sample"); imports = []; decls = d ∷ [] }

abbrev pub imported : List ℕ → ImportName
imported n = record { name = n; path = []; spec = at 0 0 }

-- what the file block and the package block declare
abbrev pub names : FileNames
names = record {
  imports = %s;
  «package» = %s;
}

-- a use as the table has it
abbrev pub Row : Type 0
Row = ℕ × List ℕ × Option Entity

abbrev pub row : Occurrence Entity → Row
row o = (o.span.start, o.name, o.meaning)

-- each use of the declaration, with what it means
abbrev pub rows : Decl Span → List Row
rows d = map row (file_uses names (file d))

-- the same by the scopes that hold at each place
abbrev pub by_place : Decl Span → List Row → List Row
by_place d = map (λ r. (r.0, r.1, meaning_at names (file d) r.1 r.0))
`, importList(c.imports), stringList(c.members))
	fail(os.WriteFile(filepath.Join(dir, "Table.antt"), []byte(head+shared), 0o644))
	head += "use Rattle.scope_names.proofs.Table.{at, name, param, Row, rows, by_place}\n"

	var decls []ast.Decl
	for _, d := range c.file.Decls {
		if g, ok := d.(*ast.GenDecl); !ok || g.Tok != token.IMPORT {
			decls = append(decls, d)
		}
	}
	const parts = 3
	per := (len(decls) + parts - 1) / parts
	for part := 0; part < parts; part++ {
		text := head
		for i := part * per; i < len(decls) && i < (part+1)*per; i++ {
			text += c.check(decls[i], fmt.Sprintf("d%02d", i))
		}
		fail(os.WriteFile(filepath.Join(dir, fmt.Sprintf("TableChecks%d.antt", part+1)), []byte(text), 0o644))
	}
}

// check gives a declaration, its table, and the checks of both definitions.
func (c *checked) check(d ast.Decl, name string) string {
	c.base = c.files.Position(d.Pos()).Offset
	uses, _ := c.uses(d)
	var rows []string
	for _, id := range uses {
		rows = append(rows, fmt.Sprintf("(%d, codes %q, %s)", c.offset(id.Pos()), id.Name, c.meaning(id)))
	}
	return fmt.Sprintf("\n-- %s\nabbrev %s : Decl Span\n%s = %s\n", first(d), name, name, c.decl(d)) +
		fmt.Sprintf("abbrev t%s : List Row\nt%s = %s\n", name, name, list(rows)) +
		fmt.Sprintf("uses_%s : rows %s ≡ t%s\nuses_%s = refl\n", name, name, name, name) +
		fmt.Sprintf("places_%s : by_place %s t%s ≡ t%s\nplaces_%s = refl\n", name, name, name, name, name)
}

func first(d ast.Decl) string {
	switch d := d.(type) {
	case *ast.FuncDecl:
		return d.Name.Name
	case *ast.GenDecl:
		return d.Tok.String()
	}
	return ""
}

func stringList(names []string) string {
	var items []string
	for _, n := range names {
		items = append(items, "codes "+fmt.Sprintf("%q", n))
	}
	return strings.Trim(list(items), "()")
}

func importList(names []string) string {
	var items []string
	for _, n := range names {
		items = append(items, fmt.Sprintf("imported (codes %q)", n))
	}
	return strings.TrimSuffix(strings.TrimPrefix(list(items), "("), ")")
}

func fail(err error) {
	if err != nil {
		fmt.Fprintln(os.Stderr, err)
		os.Exit(1)
	}
}
