#!/usr/bin/env bash
# Runs `go_show declared` on the modules of declared.txt and ends with one line 'N passed, N failed'.
#
# The lines that begin with no blank are what is wanted of a module. The lines behind them, which begin with a tab, are the
# module's files: each its path and, behind a bar, its text, in which \n is a newline and \t a tab.
set -u
top=$(cd "$(dirname "${BASH_SOURCE[0]}")/.." && pwd)
. "$top/tests/show.sh"
. "$top/tests/counts.sh"

# declared: what is answered of the module at hand within so many seconds of the processor and 2 GiB of memory, and the status.
seconds=10
declared() {
    got=$(ulimit -v 2097152; ulimit -t "$seconds"; "$show" declared "$work/module" 2>&1)
    code=$?
}

row=0
check() {
    [ -n "${wanted-}" ] || return 0
    row=$((row + 1))
    case $wanted in "gofix: "*) status=1 ;; *) status=0 ;; esac
    declared
    if [ "$code" = "$status" ] && [ "$got" = "$wanted" ]; then pass; else fail "module $row: status $code, $got, not $wanted"; fi
}

within=files
while IFS= read -r line; do
    case $line in
    "" | "#"*) ;;
    $'\t'*)
        within=files
        line=${line#$'\t'}
        file="$work/module/${line%%|*}"
        mkdir -p "$(dirname "$file")"
        printf '%b' "${line#*|}" >"$file"
        ;;
    *)
        if [ "$within" = files ]; then
            check
            rm -rf "$work/module"
            mkdir "$work/module"
            wanted=$line
        else
            wanted+=$'\n'$line
        fi
        within=wanted
        ;;
    esac
done <"$top/tests/declared.txt"
check

# chain FRONT LINES COUNT BACK: the file that has these lines so many times, each time with a number for {n} and the one before
# it for {m}.
chain() {
    rm -rf "$work/module"
    mkdir "$work/module"
    printf 'module m\n\ngo 1.22\n' >"$work/module/go.mod"
    {
        printf 'package main\n\n%s\n' "$1"
        for ((i = 1; i <= $3; i++)); do
            lines=${2//"{n}"/$i}
            printf '%s\n' "${lines//"{m}"/$((i - 1))}"
        done
        printf '%s\n' "$4"
    } >"$work/module/main.go"
    declared
}

# shows NAME PATTERN: what is answered has the pattern within it.
shows() {
    if [ "$code" = 0 ] && [[ $got == *"$2"* ]]; then pass; else fail "$1: status $code, $(tail -n 1 <<<"$got"), not $2"; fi
}

# counts NAME COUNT PATTERN: so many lines of what is answered have the pattern.
counts() {
    count=$(grep -cE "$3" <<<"$got")
    if [ "$code" = 0 ] && [ "$count" = "$2" ]; then pass; else fail "$1: status $code, $count lines, not $2"; fi
}

# structs of two of the one before, whose trees have 2^40 parts and more: as a key comparable, unless a slice is in it
pair='type S{n} = struct{ a, b S{m} }'
chain 'type S0 = struct{ x int }' "$pair" 40 'type K map[S40]int'
shows "a struct of two structs" $'\nmain.go:5:1: type S2 = struct{a struct{a struct{x int}; b struct{x int}}; b struct{a struct{x int}; b struct{x int}}}\n'
shows "a key of forty structs" $'\nmain.go:43:1: type S40 = ...\nmain.go:44:1: type K ...'
chain 'type S0 = struct{ x []int }' "$pair" 40 'type K map[S40]int'
shows "a key of forty structs that hold a slice" $'\nmain.go:43:1: type S40 = ...\nmain.go:44:1: refused'

# Type identity of such structs, at each of forty levels: of the A and the B, which hold the same at the bottom; not of the A and
# the C, whose fields there differ, or the G, which are defined types, or the A of the level before
chain $'type A0 = struct{ x int }\ntype B0 = struct{ x int }\ntype C0 = struct{ x int8 }\ntype G0 struct{ x int }' \
    $'type A{n} = struct{ a, b A{m} }\ntype B{n} = struct{ a, b B{m} }\ntype C{n} = struct{ a, b C{m} }
type G{n} struct{ a, b G{m} }\nvar p{n} *A{n} = new(B{n})\nvar q{n} *A{n} = new(C{n})\nvar r{n} *A{n} = new(G{n})
var s{n} *A{n} = new(A{m})\nvar t{n} B{n} = A{n}{}\nvar u{n} B{n} = C{n}{}\nvar v{n} G{n} = struct{ a, b G{m} }{}
var w{n} G{n} = A{n}{}\nvar x{n} G{n} = G{m}{}\nvar y{n} = A{n}{B{m}{}, A{m}{}}\nvar z{n} = A{n}{B{m}{}, C{m}{}}' 40 \
    $'type E A40\n\nvar e0 E = B40{}\n\nvar e1 *E = new(A40)\n\nvar e2 E = C40{}\n\nfunc IsNil(q *A40) bool { return q == nil }'
shows "two structs that are identical" $'\nmain.go:11:1: var p1 *struct{a struct{x int}; b struct{x int}}\n'
shows "forty structs of two structs that are identical" $'\nmain.go:596:1: var p40 ...\nmain.go:600:1: var t40 ...\nmain.go:602:1: var v40 G40\nmain.go:605:1: var y40 ...\nmain.go:607:1: type E ...\nmain.go:609:1: var e0 E\n'
for name in p t v y; do counts "identical structs, variables $name" 40 "^main\\.go:[0-9]+:1: var $name[0-9]+ "; done
counts "structs that aren't identical" 0 ': var ([qrsuwxz][0-9]|e[12])'
shows "the first struct that isn't identical" $'\nmain.go:615:1: func IsNil...\nmain.go:12:1: refused'

# types that nest as deeply as is written, and more deeply
chain 'type S0 = int' 'type S{n} = []S{m}' 1000 'type L int'
shows "999 slices" "main.go:1002:1: type S999 = [][]"
shows "1,000 slices" $'\nmain.go:1003:1: type S1000 = ...\nmain.go:1004:1: type L int'

# types that are each defined by the next, and by the one before
chain 'type S0 string' 'type S{n} S{m}' 2000 'type L []S2000'
shows "2,000 defined types" $'\nmain.go:2003:1: type S2000 string\nmain.go:2004:1: type L []S2000'

# constants, each named by the next, in a second of the processor; and each naming the next
seconds=1
chain 'const C0 = 1' 'const C{n} = C{m} + 1' 2000 'var v int16 = C2000'
shows "2,000 constants, each named by the next" $'\nmain.go:2003:1: const C2000 untyped int = 2001\nmain.go:2004:1: var v int16'
seconds=10
chain 'const B = 1' 'const C{m} = C{n} + B' 2000 'const C2000 int16 = 1'
shows "2,000 constants, each naming the next" $'\nmain.go:4:1: const C0 int16 = 2001\nmain.go:5:1: const C1 int16 = 2000\n'
chain 'const B = 1' 'const C{m} = C{n} + B' 2000 'const C2000 = C0'
counts "a cycle of 2,001 constants" 0 'const C'
shows "a cycle of 2,001 constants" $'\nmain.go:3:1: const B untyped int = 1\nmain.go:4:1: refused'

# specs of two names, each of which leads through the first name of the one before; and constants that are refused since they
# lead to a spec with another name that is
chain 'const C0, D0 = 1, 2' 'const C{n}, D{n} = C{m} + 1, C{n}' 2000 'var v int16 = D2000'
shows "2,000 specs of two names" $'\nmain.go:2003:1: const D2000 untyped int = 2001\nmain.go:2004:1: var v int16'
chain 'const C0, D0 = 1, missing' 'const C{n} = C{m} + 1' 2000 'const B = 1'
counts "2,000 constants behind a spec that is refused" 0 'const C'
shows "2,000 constants behind a spec that is refused" $'\nmain.go:2004:1: const B untyped int = 1\nmain.go:3:1: refused'
chain 'const B = 1' 'const C{m} = C{n} + B' 2000 'const C2000, D = 1, missing'
counts "2,000 constants before a spec that is refused" 0 'const C'

# strings of constants that double: 64 KiB, and a terabyte, for which there is no memory
chain 'const S0 = "x"' 'const S{n} = S{m} + S{m}' 16 'const N = len(S16)'
shows "a constant of 64 KiB" $'\nmain.go:20:1: const N int = 65536'
chain 'const S0 = "x"' 'const S{n} = S{m} + S{m}' 40 'const N = len(S40)'
if [ "$code" = 1 ] && [[ $got == "go_show: "*memory* ]]; then pass; else fail "a constant of 2^40 bytes: status $code, ${got:0:200}"; fi

echo "$passed passed, $failed failed"
[ "$failed" = 0 ]
