package main

import (
	"fmt"
	"go/ast"
	"go/token"
	"strings"
)

// trees writes syntax trees as antt terms. Offsets count from `base`, and each node has the span of its source.
type trees struct {
	files *token.FileSet
	base  int
}

func (t trees) offset(p token.Pos) int { return t.files.Position(p).Offset - t.base }

func (t trees) span(n ast.Node) string { return t.between(n.Pos(), n.End()) }

func (t trees) between(from, to token.Pos) string {
	return fmt.Sprintf("(at %d %d)", t.offset(from), t.offset(to))
}

func quoted(s string) string { return fmt.Sprintf("(codes %q)", s) }

func (t trees) name(id *ast.Ident) string {
	return fmt.Sprintf("(name %d %s)", t.offset(id.Pos()), quoted(id.Name))
}

func (t trees) nameOption(id *ast.Ident) string {
	if id == nil {
		return "None"
	}
	return "(Some " + t.name(id) + ")"
}

func list(items []string) string {
	return "(" + strings.Join(append(items, "[]"), " ∷ ") + ")"
}

// chain folds entries into a list of the tree: `(more a (more b none))`.
func chain(items []string, none string) string {
	s := none
	for i := len(items) - 1; i >= 0; i-- {
		s = "(" + items[i] + " " + s + ")"
	}
	return s
}

func (t trees) names(ids []*ast.Ident) string {
	var items []string
	for _, id := range ids {
		items = append(items, t.name(id))
	}
	return list(items)
}

func (t trees) typeOf(e ast.Expr) string {
	switch e := e.(type) {
	case *ast.Ident:
		return fmt.Sprintf("(named %s None %s)", t.span(e), t.name(e))
	case *ast.SelectorExpr:
		return fmt.Sprintf("(named %s (Some %s) %s)", t.span(e), t.name(e.X.(*ast.Ident)), t.name(e.Sel))
	case *ast.StarExpr:
		return fmt.Sprintf("(pointer %s %s)", t.span(e), t.typeOf(e.X))
	case *ast.ArrayType:
		return fmt.Sprintf("(slice_type %s %s)", t.span(e), t.typeOf(e.Elt))
	case *ast.MapType:
		return fmt.Sprintf("(map_type %s %s %s)", t.span(e), t.typeOf(e.Key), t.typeOf(e.Value))
	case *ast.StructType:
		var items []string
		for _, f := range e.Fields.List {
			for _, n := range f.Names {
				items = append(items, fmt.Sprintf("field %s %s %s", t.span(f), t.name(n), t.typeOf(f.Type)))
			}
		}
		return fmt.Sprintf("(struct_type %s %s)", t.span(e), chain(items, "no_fields"))
	}
	panic(fmt.Sprintf("%T", e))
}

func (t trees) typeOption(e ast.Expr) string {
	if e == nil {
		return "None"
	}
	return "(Some " + t.typeOf(e) + ")"
}

func (t trees) params(fields *ast.FieldList) string {
	var items []string
	if fields != nil {
		for _, f := range fields.List {
			if len(f.Names) == 0 {
				items = append(items, fmt.Sprintf("(param %s None %s)", t.span(f), t.typeOf(f.Type)))
			}
			for _, n := range f.Names {
				items = append(items, fmt.Sprintf("(param %s (Some %s) %s)", t.span(f), t.name(n), t.typeOf(f.Type)))
			}
		}
	}
	return list(items)
}

func (t trees) sig(f *ast.FuncType) string {
	return fmt.Sprintf("(record { params = %s; results = %s })", t.params(f.Params), t.params(f.Results))
}

var unaries = map[token.Token]string{token.ADD: "Plus", token.SUB: "Minus", token.NOT: "Not", token.XOR: "Flip",
	token.AND: "Address"}

var binaries = map[token.Token]string{token.ADD: "Add", token.SUB: "Sub", token.MUL: "Mul", token.GTR: "Gt",
	token.LSS: "Lt", token.EQL: "Eq"}

func (t trees) expr(e ast.Expr) string {
	s := t.span(e)
	switch e := e.(type) {
	case *ast.Ident:
		return fmt.Sprintf("(ident %s %s)", s, quoted(e.Name))
	case *ast.BasicLit:
		if e.Kind == token.STRING {
			return fmt.Sprintf("(str_lit %s [])", s)
		}
		return fmt.Sprintf("(int_lit %s [])", s)
	case *ast.ParenExpr:
		return t.expr(e.X)
	case *ast.CompositeLit:
		return fmt.Sprintf("(composite %s %s %s)", s, t.typeOf(e.Type), t.elems(e))
	case *ast.SelectorExpr:
		return fmt.Sprintf("(selector %s %s %s)", s, t.expr(e.X), t.name(e.Sel))
	case *ast.IndexExpr:
		return fmt.Sprintf("(index %s %s %s)", s, t.expr(e.X), t.expr(e.Index))
	case *ast.CallExpr:
		return fmt.Sprintf("(call %s %s %s Plain)", s, t.expr(e.Fun), t.exprs(e.Args))
	case *ast.FuncLit:
		return fmt.Sprintf("(func_lit %s %s %s %s)", s, t.sig(e.Type), t.span(e.Body), t.stmts(e.Body.List))
	case *ast.UnaryExpr:
		return fmt.Sprintf("(unary %s %s %s)", s, unaries[e.Op], t.expr(e.X))
	case *ast.BinaryExpr:
		return fmt.Sprintf("(binary %s %s %s %s)", s, binaries[e.Op], t.expr(e.X), t.expr(e.Y))
	case *ast.StarExpr:
		return fmt.Sprintf("(star %s %s)", s, t.expr(e.X))
	case *ast.ArrayType:
		return fmt.Sprintf("(type_operand %s %s)", s, t.typeOf(e))
	}
	panic(fmt.Sprintf("%T", e))
}

func (t trees) exprs(es []ast.Expr) string {
	var items []string
	for _, e := range es {
		items = append(items, "expr_and "+t.expr(e))
	}
	return chain(items, "no_exprs")
}

func (t trees) exprOption(e ast.Expr) string {
	if e == nil {
		return "no_expr"
	}
	return "(some_expr " + t.expr(e) + ")"
}

func (t trees) value(e ast.Expr) string {
	if c, ok := e.(*ast.CompositeLit); ok && c.Type == nil {
		return fmt.Sprintf("(braced %s %s)", t.span(c), t.elems(c))
	}
	return "(plain " + t.expr(e) + ")"
}

func (t trees) elems(c *ast.CompositeLit) string {
	var items []string
	for _, e := range c.Elts {
		if kv, ok := e.(*ast.KeyValueExpr); ok {
			items = append(items, fmt.Sprintf("elem %s (some_value %s) %s", t.span(e), t.value(kv.Key), t.value(kv.Value)))
		} else {
			items = append(items, fmt.Sprintf("elem %s no_value %s", t.span(e), t.value(e)))
		}
	}
	return chain(items, "no_elems")
}

func (t trees) specs(d *ast.GenDecl) string {
	var items []string
	for _, s := range d.Specs {
		s := s.(*ast.ValueSpec)
		items = append(items, fmt.Sprintf("spec %s %s %s %s", t.span(s), t.names(s.Names), t.typeOption(s.Type), t.exprs(s.Values)))
	}
	return chain(items, "no_specs")
}

func (t trees) values(d *ast.GenDecl) string {
	word := "var_decl"
	if d.Tok == token.CONST {
		word = "const_decl"
	}
	grouped := "false"
	if d.Lparen.IsValid() {
		grouped = "true"
	}
	return fmt.Sprintf("(%s %s %s %s)", word, t.span(d), grouped, t.specs(d))
}

func (t trees) stmts(ss []ast.Stmt) string {
	var items []string
	for _, s := range ss {
		items = append(items, "stmt_and "+t.stmt(s))
	}
	return chain(items, "no_stmts")
}

func (t trees) stmtOption(s ast.Stmt) string {
	if s == nil {
		return "no_stmt"
	}
	return "(some_stmt " + t.stmt(s) + ")"
}

func (t trees) stmt(stmt ast.Stmt) string {
	s := t.span(stmt)
	switch n := stmt.(type) {
	case *ast.DeclStmt:
		return t.values(n.Decl.(*ast.GenDecl))
	case *ast.ExprStmt:
		return fmt.Sprintf("(eval %s %s)", s, t.expr(n.X))
	case *ast.IncDecStmt:
		up := "false"
		if n.Tok == token.INC {
			up = "true"
		}
		return fmt.Sprintf("(step %s %s %s)", s, t.expr(n.X), up)
	case *ast.AssignStmt:
		if n.Tok == token.DEFINE {
			return fmt.Sprintf("(define %s %s %s)", s, t.names(idents(n.Lhs)), t.exprs(n.Rhs))
		}
		op := "None"
		if n.Tok == token.ADD_ASSIGN {
			op = "(Some Add)"
		}
		return fmt.Sprintf("(assign %s %s %s %s)", s, t.exprs(n.Lhs), op, t.exprs(n.Rhs))
	case *ast.ReturnStmt:
		return fmt.Sprintf("(return_ %s %s)", s, t.exprs(n.Results))
	case *ast.BranchStmt:
		word := "continue_"
		if n.Tok == token.BREAK {
			word = "break_"
		}
		return fmt.Sprintf("(%s %s %s)", word, s, t.nameOption(n.Label))
	case *ast.BlockStmt:
		return fmt.Sprintf("(inner %s %s)", s, t.stmts(n.List))
	case *ast.IfStmt:
		arms, last := t.arms(n)
		return fmt.Sprintf("(if_ %s %s %s)", s, arms, last)
	case *ast.ForStmt:
		return fmt.Sprintf("(for_ %s %s %s %s %s %s)", s, t.stmtOption(n.Init), t.exprOption(n.Cond), t.stmtOption(n.Post), t.span(n.Body), t.stmts(n.Body.List))
	case *ast.RangeStmt:
		return fmt.Sprintf("(range_ %s %s %s %s %s)", s, t.left(n), t.expr(n.X), t.span(n.Body), t.stmts(n.Body.List))
	case *ast.SwitchStmt:
		var items []string
		for _, c := range n.Body.List {
			c := c.(*ast.CaseClause)
			items = append(items, fmt.Sprintf("case %s %s %s", t.span(c), t.exprs(c.List), t.stmts(c.Body)))
		}
		return fmt.Sprintf("(switch %s %s %s %s)", s, t.stmtOption(n.Init), t.exprOption(n.Tag), chain(items, "no_cases"))
	case *ast.DeferStmt:
		return fmt.Sprintf("(defer %s %s)", s, t.expr(n.Call))
	case *ast.LabeledStmt:
		return fmt.Sprintf("(label %s %s %s)", s, t.name(n.Label), t.stmt(n.Stmt))
	}
	panic(fmt.Sprintf("%T", stmt))
}

func idents(es []ast.Expr) []*ast.Ident {
	var ids []*ast.Ident
	for _, e := range es {
		if e != nil {
			ids = append(ids, e.(*ast.Ident))
		}
	}
	return ids
}

func (t trees) left(n *ast.RangeStmt) string {
	var es []ast.Expr
	for _, e := range []ast.Expr{n.Key, n.Value} {
		if e != nil {
			es = append(es, e)
		}
	}
	switch n.Tok {
	case token.DEFINE:
		return "(defines " + t.names(idents(es)) + ")"
	case token.ASSIGN:
		return "(assigns " + t.exprs(es) + ")"
	}
	return "nothing"
}

// arms gives an `if` with its `else if`s, and the last block.
func (t trees) arms(n *ast.IfStmt) (arms, last string) {
	var items []string
	last = "no_block"
	for n != nil {
		items = append(items, fmt.Sprintf("arm %s %s %s %s %s", t.between(n.Pos(), n.Body.End()), t.stmtOption(n.Init), t.expr(n.Cond), t.span(n.Body), t.stmts(n.Body.List)))
		next := n.Else
		n = nil
		switch e := next.(type) {
		case *ast.IfStmt:
			n = e
		case *ast.BlockStmt:
			last = fmt.Sprintf("(some_block %s %s)", t.span(e), t.stmts(e.List))
		}
	}
	return chain(items, "no_arms"), last
}

func (t trees) decl(d ast.Decl) string {
	switch d := d.(type) {
	case *ast.FuncDecl:
		receiver := "None"
		if d.Recv != nil {
			f := d.Recv.List[0]
			var id *ast.Ident
			if len(f.Names) > 0 {
				id = f.Names[0]
			}
			of, pointer := f.Type, "false"
			if star, ok := of.(*ast.StarExpr); ok {
				of, pointer = star.X, "true"
			}
			receiver = fmt.Sprintf("(Some (record { span = %s; name = %s; pointer = %s; of = %s }))", t.span(d.Recv), t.nameOption(id), pointer, t.name(of.(*ast.Ident)))
		}
		return fmt.Sprintf("func (record { span = %s; receiver = %s; name = %s; sig = %s; body_span = %s; body = %s })", t.span(d), receiver, t.name(d.Name), t.sig(d.Type), t.span(d.Body), t.stmts(d.Body.List))
	case *ast.GenDecl:
		if d.Tok != token.TYPE {
			return "values " + t.values(d)
		}
		grouped := "false"
		if d.Lparen.IsValid() {
			grouped = "true"
		}
		var items []string
		for _, s := range d.Specs {
			s := s.(*ast.TypeSpec)
			alias := "false"
			if s.Assign.IsValid() {
				alias = "true"
			}
			items = append(items, fmt.Sprintf("record { span = %s; name = %s; alias = %s; of = %s }", t.span(s), t.name(s.Name), alias, t.typeOf(s.Type)))
		}
		return fmt.Sprintf("types %s %s %s", t.span(d), grouped, list(items))
	}
	panic(fmt.Sprintf("%T", d))
}
