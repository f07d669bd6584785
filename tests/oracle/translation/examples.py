#!/usr/bin/env python3
"""Programs in Go text become examples of the translation: each is run by the real Go tool, and its tree and its
events become a lemma `NAME : run TREE ≡ Some EVENTS`, proved by `refl`.

    python3 tests/oracle/translation/examples.py [OUT]      writes Shown*.antt into OUT
                                                            (crates/go_translation/proofs, if it isn't given)
    python3 tests/oracle/translation/examples.py --by-hand  what the Go tool shows where the events are given by hand

A file TOPIC.txt holds: `@ MODULE HEAD`, then for each program `p NAME [n=BUDGET] [choices=A,B]`, its text, `==` before
the text of package lib, and `=> EVENTS` where the events are given by hand. GO is the Go tool, `go` if it isn't set.
"""
import glob
import os
import re
import shutil
import subprocess
import sys
import tempfile

HERE = os.path.dirname(os.path.abspath(__file__))
sys.path.insert(0, HERE)
from trees import D  # noqa: E402  declarations as trees

GO = os.environ.get('GO', 'go')
HOME = tempfile.mkdtemp()
TOPICS = 'order numbers values collections control ranges defers panics functions packages mixed random specification'

HARNESS = '''package h
import ("fmt"; "reflect"; "runtime"; "strings"; "encoding/hex")
func show(x any) string {
	v := reflect.ValueOf(x)
	switch v.Kind() {
	case reflect.Bool: return fmt.Sprintf("bool:%v", v.Bool())
	case reflect.String: return "str:" + hex.EncodeToString([]byte(v.String()))
	default: return fmt.Sprintf("%s:%d", v.Kind(), x)
	}
}
func Event(p string, a []any) {
	s := []string{}
	for _, x := range a { s = append(s, show(x)) }
	fmt.Println("E " + p + " " + strings.Join(s, " "))
}
func Run(f func()) {
	defer func() {
		r := recover()
		if r == nil { fmt.Println("END"); return }
		if e, ok := r.(runtime.Error); ok { fmt.Println("RT " + e.Error()); return }
		if e, ok := r.(error); ok { fmt.Println("RT " + e.Error()); return }
		fmt.Printf("PANIC %T %s\\n", r, show(r))
	}()
	f()
}
'''
# print and println tell their values; a program's main is called prog
SHADOW = '''
func println(a ...any) { harness.Event("println", a) }
func print(a ...any) { harness.Event("print", a) }
var _ = println
var _ = print
'''


def by_go(main, lib):
    """The lines that the real Go tool gives for a program."""
    work = HOME + '/go'
    shutil.rmtree(work, ignore_errors=True)
    os.makedirs(work + '/h')
    imports = 'import harness "m/h"\n'

    def write(path, text):
        with open(work + '/' + path, 'w') as f:
            f.write(text)

    write('go.mod', 'module m\ngo 1.19\n')
    write('h/h.go', HARNESS)
    if lib:
        os.makedirs(work + '/lib')
        write('lib/lib.go', 'package lib\n' + imports + SHADOW + lib + '\n')
        imports += 'import "m/lib"\n'
    text = re.sub(r'func main\(\)', 'func prog()', main)
    write('main.go', 'package main\n' + imports + SHADOW + text + '\nfunc main() { harness.Run(prog) }\n')
    env = dict(os.environ, GOFLAGS='-mod=mod', GOPROXY='off', GOCACHE=HOME + '/cache', HOME=HOME, GOPATH=HOME + '/path')
    ran = subprocess.run([GO, 'run', '.'], cwd=work, capture_output=True, text=True, env=env, timeout=120)
    if ran.returncode != 0:
        raise RuntimeError(main + '\n' + ran.stderr)
    return ran.stdout.strip().split('\n')


# ---- events as terms of the logic

KINDS = {k: k[0].upper() + k[1:] for k in
         'int int8 int16 int32 int64 uint uint8 uint16 uint32 uint64'.split()}
REASONS = [('divide by zero', 'divide'), ('slice bounds', 'bounds'), ('index out of range', 'index'),
           ('nil pointer', 'nil pointer'), ('nil map', 'nil map'), ('negative shift', 'shift'), ('makeslice', 'size')]
used = set()


def listed(items):
    return '(' + ' ∷ '.join(items + ['[]']) + ')' if items else '[]'


def value(word):
    kind, text = word.split(':', 1)
    if kind == 'bool':
        used.add('Truth')
        return 'Truth ' + text
    if kind == 'str':
        used.add('Str')
        data = bytes.fromhex(text)
        if all(32 <= b < 127 and b not in (34, 92) for b in data):
            return 'Str (codes "%s")' % data.decode()
        return 'Str (%s)' % ' ∷ '.join([str(b) for b in data] + ['[]'])
    used.update({KINDS[kind], 'Number'})
    n = int(text)
    return 'Number %s (%s)' % (KINDS[kind], 'pos %d' % n if n >= 0 else 'negsuc %d' % (-n - 1))


def event(line):
    _, printer, *words = line.split(' ')
    return '%s %s' % ('line' if printer == 'println' else 'text', listed([value(w) for w in words if w]))


def outcome(lines):
    """The events, the newest first, and how the run ends."""
    events = listed([event(x) for x in reversed(lines) if x.startswith('E ')])
    last = lines[-1]
    if last in ('END', 'CUT'):
        word = {'END': 'Ended', 'CUT': 'Running'}[last]
        used.add(word)
        return '%s %s' % (word, events)
    used.add('Panicked')
    if last.startswith('RT '):
        used.add('runtime_error')
        reason = [word for message, word in REASONS if message in last][0]
        return 'Panicked (runtime_error (codes "%s")) %s' % (reason, events)
    _, name, shown = last.split(' ', 2)
    if name in KINDS:
        of = '(NumberType %s)' % KINDS[name]
        used.update({'NumberType', KINDS[name]})
    elif name in ('string', 'bool'):
        of = {'string': 'StringType', 'bool': 'BoolType'}[name]
        used.add(of)
    else:
        of = '(DefinedType (codes "m") (codes "%s"))' % name.split('.')[1]
        used.add('DefinedType')
    return 'Panicked (panicked %s (%s)) %s' % (of, value(shown), events)


# ---- files of proofs

NAMES = [
    ('Rattle.go_tree.specs.declared.operators.BinOp.TheVariants',
     'Mul Div Rem Shl Shr And AndNot Add Sub Or Xor Eq Ne Lt Le Gt Ge LogAnd LogOr'),
    ('Rattle.go_tree.specs.declared.operators.UnOp.TheVariants', 'Plus Minus Not Flip Address'),
    ('Rattle.go_tree.specs.Tree',
     'no_expr some_expr plain no_value some_value no_stmt some_stmt nothing assigns defines'),
    ('Rattle.go_kernel.specs.Kernel', ''),
    ('Rattle.go_translation.proofs.Trees',
     'n ns ty qty ptr slc mp fields st par sig v int rune str sel idx sl es app top un bin der els braces comp ss lit '
     'cst vr nop ev stp asg def ret brk cnt blk cond loop rng sw dfr lab consts_at vars_at type_at func_at method_at'),
    ('Rattle.go_translation.proofs.Shown', 'run run_with run_lib line text panicked'),
]


def module_text(head, lines):
    words = set(re.findall(r'[A-Za-z_0-9]+', '\n'.join(x for x in lines if not x.startswith('--'))))
    uses = ['-- ' + head,
            'use Rattle.std.specs.Prelude.{◌≡◌, List, [], ◌∷◌, Some, None, true, false, pos, negsuc, codes}',
            'use Rattle.std.proofs.Common.{refl}']
    if 'unfolding prim chars' in lines:
        uses.append('use Rattle.std.specs.Str.{chars}')
    for module, names in NAMES:
        names = sorted(used) + ['prim'] if not names else [x for x in names.split() if x in words]
        if names:
            uses.append('use %s.{%s}' % (module, ', '.join(names)))
    return '\n'.join(uses) + '\n\n' + '\n'.join(lines).strip('\n') + '\n'


def programs(path):
    """Each program of a file: its name, its notes, its texts, and the events given by hand."""
    notes = []
    with open(path) as f:
        blocks = f.read().split('\n')
    i = 1
    while i < len(blocks):
        line = blocks[i]
        i += 1
        if line.startswith('// '):
            notes.append(line[3:])
        elif line.startswith('# '):
            yield line[2:], None, None, None, None, None
        elif line.startswith('p '):
            _, name, *flags = line.split()
            texts, given = [[], []], None
            part = texts[0]
            while i < len(blocks) and blocks[i].strip():
                if blocks[i].startswith('=='):
                    part = texts[1]
                elif blocks[i].startswith('=>'):
                    given = blocks[i][2:].strip().split(' | ')
                else:
                    part.append(blocks[i])
                i += 1
            yield name, dict(x.split('=') for x in flags), notes, '\n'.join(texts[0]), '\n'.join(texts[1]), given
            notes = []


def lemma(name, flags, notes, main, lib, lines):
    told = ['-- ' + x for x in notes]
    if lib:
        told += ['-- package lib'] + ['--   ' + x for x in lib.split('\n')] + ['-- package main']
    told += ['--   ' + x.replace('\t', '    ') for x in main.split('\n')]
    budget, choices = flags.get('n', '60'), listed(flags['choices'].split(',')) if 'choices' in flags else '[]'
    if lib:
        term = 'run_lib %s %s' % (D(lib), D(main))
    elif budget == '60' and choices == '[]':
        term = 'run ' + D(main)
    else:
        term = 'run_with %s %s %s' % (choices, budget, D(main))
    opened = 'unfolding prim chars' if '(rune ' in term else 'unfolding prim'
    return told + ['%s : %s ≡ Some (%s)' % (name, term, outcome(lines)), opened, name + ' = refl', '']


def main():
    by_hand = sys.argv[1:] == ['--by-hand']
    out = os.path.join(HERE, '../../../crates/go_translation/proofs') if by_hand or not sys.argv[1:] else sys.argv[1]
    total = hand = 0
    for topic in TOPICS.split():
        path = os.path.join(HERE, topic + '.txt')
        with open(path) as f:
            _, module, head = f.readline().rstrip('\n').split(' ', 2)
        lines = []
        used.clear()
        for name, flags, notes, text, lib, given in programs(path):
            if flags is None:
                lines += ['-- ---- ' + name, '']
                continue
            if by_hand:
                if given:
                    try:
                        shown = ' | '.join(by_go(text, lib))
                    except (RuntimeError, subprocess.TimeoutExpired):
                        shown = 'not run by the Go tool'
                    print('%s\n  here: %s\n  tool: %s' % (name, ' | '.join(given), shown))
                continue
            lines += lemma(name, flags, notes, text, lib, given or by_go(text, lib))
            total += 1
            hand += given is not None
        if not by_hand:
            with open(os.path.join(out, module + '.antt'), 'w') as f:
                f.write(module_text(head, lines))
    if not by_hand:
        print('%d programs, %d with events given by hand' % (total, hand))
    shutil.rmtree(HOME, ignore_errors=True)


main()
