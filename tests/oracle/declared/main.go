// Compares tests/declared.txt with go/types: the constants with their types and values, the variables, types, functions
// and methods that each module declares, and which declaration is the first with an error. Run it at the top of the
// repository, with Go 1.19:
//
//	go run tests/oracle/declared/main.go
//
// Modules that are refused before their types are asked for are passed over. It prints each difference in a module for
// which `profile.txt` beside it gives no reason, then a line of counts.
package main

import (
	"bufio"
	"fmt"
	"go/ast"
	"go/constant"
	"go/parser"
	"go/token"
	"go/types"
	"os"
	"path"
	"sort"
	"strings"
)

// testModule is what is wanted of a module, the words before it, and its files by their paths.
type testModule struct {
	title  string
	wanted []string
	files  map[string]string
}

func main() {
	reasons := reasonsOf("tests/oracle/declared/profile.txt")
	alike, different, wrong := 0, 0, 0
	for _, it := range read("tests/declared.txt") {
		if strings.HasPrefix(it.wanted[0], "gofix:") {
			continue
		}
		same, others := compared(it)
		alike += same
		switch {
		case len(others) == 0:
		case reasons[it.title] != "":
			different++
		default:
			wrong++
			fmt.Printf("%s:\n\t%s\n", it.title, strings.Join(others, "\n\t"))
		}
	}
	fmt.Printf("%d lines alike, %d modules different for a reason, %d wrong\n", alike, different, wrong)
	if wrong > 0 {
		os.Exit(1)
	}
}

// compared is how many wanted lines go/types gives too, and the lines that one of them gives alone. Where a header is
// refused not all is shown of those behind it.
func compared(it testModule) (int, []string) {
	shown, first, err := show(it)
	if err != nil {
		return 0, []string{err.Error()}
	}
	alike := 0
	var others []string
	for _, line := range it.wanted {
		if shown[line] || line == first {
			alike++
		} else {
			others = append(others, line)
		}
		delete(shown, line)
	}
	if first == "" {
		others = append(others, sorted(shown)...)
	}
	return alike, others
}

func sorted(lines map[string]bool) []string {
	var all []string
	for line := range lines {
		all = append(all, line)
	}
	sort.Strings(all)
	return all
}

// reasonsOf maps the words before a module to why it differs.
func reasonsOf(name string) map[string]string {
	text, err := os.ReadFile(name)
	if err != nil {
		fmt.Fprintln(os.Stderr, err)
		os.Exit(2)
	}
	all := map[string]string{}
	for _, row := range strings.Split(string(text), "\n") {
		if title, reason, ok := strings.Cut(row, " :: "); ok {
			all[title] = reason
		}
	}
	return all
}

func read(name string) []testModule {
	file, err := os.Open(name)
	if err != nil {
		fmt.Fprintln(os.Stderr, err)
		os.Exit(2)
	}
	var all []testModule
	lines := bufio.NewScanner(file)
	lines.Buffer(nil, 1<<24)
	inFiles, title := true, ""
	for lines.Scan() {
		line := lines.Text()
		switch {
		case line == "":
		case line[0] == '#':
			title = strings.TrimSpace(line[1:])
		case line[0] == '\t':
			inFiles = true
			name, text, _ := strings.Cut(line[1:], "|")
			all[len(all)-1].files[name] = unescaped(text)
		case inFiles:
			inFiles = false
			all = append(all, testModule{title, []string{line}, map[string]string{}})
		default:
			last := &all[len(all)-1]
			last.wanted = append(last.wanted, line)
		}
	}
	return all
}

// unescaped is what bash's printf makes of the text by %b.
func unescaped(text string) string {
	var out []byte
	for i := 0; i < len(text); i++ {
		if text[i] != '\\' || i+1 == len(text) {
			out = append(out, text[i])
			continue
		}
		i++
		switch text[i] {
		case 'n':
			out = append(out, '\n')
		case 't':
			out = append(out, '\t')
		case 'r':
			out = append(out, '\r')
		case '\\':
			out = append(out, '\\')
		case 'x':
			var b byte
			fmt.Sscanf(text[i+1:i+3], "%02x", &b)
			out = append(out, b)
			i += 2
		default:
			out = append(out, '\\', text[i])
		}
	}
	return string(out)
}

// program is what is checked of a module so far.
type program struct {
	files  *token.FileSet
	trees  map[string][]*ast.File
	ready  map[string]*types.Package
	errors []token.Pos
}

func (it *program) Import(name string) (*types.Package, error) {
	if done, ok := it.ready[name]; ok {
		return done, nil
	}
	trees, ok := it.trees[name]
	if !ok {
		return nil, fmt.Errorf("no package %s", name)
	}
	config := types.Config{GoVersion: "go1.19", Importer: it, Error: func(err error) {
		if it2, ok := err.(types.Error); ok && !strings.HasPrefix(it2.Msg, "\t") {
			it.errors = append(it.errors, it2.Pos)
		}
	}}
	done, _ := config.Check(name, it.files, trees, nil)
	it.ready[name] = done
	return done, nil
}

// show is the lines of a module and the line of the first refused header. An error: a file isn't read.
func show(of testModule) (map[string]bool, string, error) {
	module := strings.Trim(strings.Fields(of.files["go.mod"])[1], `"`)
	it := &program{token.NewFileSet(), map[string][]*ast.File{}, map[string]*types.Package{}, nil}
	var names, paths []string
	for name := range of.files {
		if strings.HasSuffix(name, ".go") {
			names = append(names, name)
		}
	}
	sort.Strings(names)
	for _, name := range names {
		tree, err := parser.ParseFile(it.files, name, of.files[name], 0)
		if err != nil {
			return nil, "", err
		}
		home := path.Join(module, path.Dir(name))
		if len(it.trees[home]) == 0 {
			paths = append(paths, home)
		}
		it.trees[home] = append(it.trees[home], tree)
	}
	sort.Strings(paths)
	lines, first := map[string]bool{}, ""
	for _, name := range it.inOrder(paths) {
		it.Import(name)
		lines["package "+name] = true
		for _, tree := range it.trees[name] {
			refused := it.declared(tree, it.ready[name], lines)
			if first == "" {
				first = refused
			}
		}
	}
	return lines, first, nil
}

// inOrder is the packages in dependency order: the least path comes next whose imports all came.
func (it *program) inOrder(paths []string) []string {
	var order []string
	came := map[string]bool{}
	ready := func(name string) bool {
		for _, tree := range it.trees[name] {
			for _, spec := range tree.Imports {
				of := strings.Trim(spec.Path.Value, "\"`")
				if len(it.trees[of]) > 0 && !came[of] {
					return false
				}
			}
		}
		return !came[name]
	}
	for len(order) < len(paths) {
		before := len(order)
		for _, name := range paths {
			if ready(name) {
				order, came[name] = append(order, name), true
				break
			}
		}
		if len(order) == before {
			break
		}
	}
	return order
}

// declared adds the lines of a file's declarations whose headers have no error, and gives that of the first that has
// one.
func (it *program) declared(tree *ast.File, home *types.Package, lines map[string]bool) string {
	first := ""
	add := func(from, header token.Pos, texts ...string) {
		at := it.files.Position(from)
		place := fmt.Sprintf("%s:%d:%d: ", at.Filename, at.Line, at.Column)
		for _, pos := range it.errors {
			if from <= pos && pos <= header {
				if first == "" {
					first = place + "refused"
				}
				return
			}
		}
		for _, text := range texts {
			lines[place+text] = true
		}
	}
	for _, decl := range tree.Decls {
		switch decl := decl.(type) {
		case *ast.FuncDecl:
			add(decl.Pos(), decl.Body.Pos()-1, funcText(decl, home))
		case *ast.GenDecl:
			for _, spec := range decl.Specs {
				from := spec.Pos()
				if !decl.Lparen.IsValid() && decl.Tok != token.IMPORT {
					from = decl.Pos()
				}
				add(from, spec.End(), specTexts(spec, home)...)
			}
		}
	}
	return first
}

func specTexts(spec ast.Spec, home *types.Package) []string {
	var texts []string
	switch spec := spec.(type) {
	case *ast.TypeSpec:
		texts = append(texts, objectText(home.Scope().Lookup(spec.Name.Name), spec.Assign.IsValid(), home))
	case *ast.ValueSpec:
		for _, name := range spec.Names {
			if name.Name != "_" {
				texts = append(texts, objectText(home.Scope().Lookup(name.Name), false, home))
			}
		}
	}
	return texts
}

func objectText(object types.Object, alias bool, home *types.Package) string {
	switch object := object.(type) {
	case *types.Const:
		return fmt.Sprintf("const %s %s = %s", object.Name(), typeText(object.Type(), home), valueText(object.Val()))
	case *types.Var:
		return fmt.Sprintf("var %s %s", object.Name(), typeText(object.Type(), home))
	case *types.TypeName:
		if alias {
			return fmt.Sprintf("type %s = %s", object.Name(), typeText(object.Type(), home))
		}
		return fmt.Sprintf("type %s %s", object.Name(), typeText(object.Type().Underlying(), home))
	}
	return "nothing"
}

func valueText(value constant.Value) string {
	if value.Kind() != constant.String {
		return value.ExactString()
	}
	text := `"`
	for _, b := range []byte(constant.StringVal(value)) {
		if b == '"' || b == '\\' {
			text += `\` + string(rune(b))
		} else if b < 0x20 || b >= 0x7f {
			text += fmt.Sprintf(`\x%02x`, b)
		} else {
			text += string(rune(b))
		}
	}
	return text + `"`
}

func funcText(decl *ast.FuncDecl, home *types.Package) string {
	if decl.Recv == nil {
		object, ok := home.Scope().Lookup(decl.Name.Name).(*types.Func)
		if !ok {
			return "nothing"
		}
		return "func " + decl.Name.Name + signatureText(object.Type().(*types.Signature), home)
	}
	of, pointer := decl.Recv.List[0].Type, ""
	if star, ok := of.(*ast.StarExpr); ok {
		of, pointer = star.X, "*"
	}
	name, ok := of.(*ast.Ident)
	if !ok {
		return "nothing"
	}
	object := home.Scope().Lookup(name.Name)
	if object == nil {
		return "nothing"
	}
	named, ok := object.Type().(*types.Named)
	if !ok {
		return "nothing"
	}
	for i := 0; i < named.NumMethods(); i++ {
		method := named.Method(i)
		if method.Name() == decl.Name.Name {
			signature := method.Type().(*types.Signature)
			return "func (" + pointer + typeText(named, home) + ") " + method.Name() + signatureText(signature, home)
		}
	}
	return "nothing"
}

func signatureText(of *types.Signature, home *types.Package) string {
	text := "(" + tupleText(of.Params(), home) + ")"
	switch of.Results().Len() {
	case 0:
		return text
	case 1:
		return text + " " + tupleText(of.Results(), home)
	}
	return text + " (" + tupleText(of.Results(), home) + ")"
}

func tupleText(of *types.Tuple, home *types.Package) string {
	var texts []string
	for i := 0; i < of.Len(); i++ {
		texts = append(texts, typeText(of.At(i).Type(), home))
	}
	return strings.Join(texts, ", ")
}

func typeText(of types.Type, home *types.Package) string {
	switch of := of.(type) {
	case *types.Basic:
		switch of.Name() {
		case "byte":
			return "uint8"
		case "rune":
			return "int32"
		}
		return of.String()
	case *types.Named:
		if of.Obj().Pkg() == home {
			return of.Obj().Name()
		}
		return of.Obj().Pkg().Path() + "." + of.Obj().Name()
	case *types.Pointer:
		return "*" + typeText(of.Elem(), home)
	case *types.Slice:
		return "[]" + typeText(of.Elem(), home)
	case *types.Map:
		return "map[" + typeText(of.Key(), home) + "]" + typeText(of.Elem(), home)
	case *types.Struct:
		var fields []string
		for i := 0; i < of.NumFields(); i++ {
			fields = append(fields, of.Field(i).Name()+" "+typeText(of.Field(i).Type(), home))
		}
		return "struct{" + strings.Join(fields, "; ") + "}"
	}
	return of.String()
}
