#!/usr/bin/env bash
# Asks `go_show check` how the types of relations.txt stand to one another and ends with one line 'N passed, N failed'.
#
# A line of relations.txt is a type, a tab, a value of it, a tab, and a sign for each of the first sixteen types: whether
# the type of the line is identical to it `=`, a value of the type assignable to it `a`, or the value only convertible to it
# `c`, or none of them `-`, by the Go specification (Type identity; Assignability; Conversions; but no number is converted
# to a string). The last four are the types of untyped constants and of nil. All that holds is in one module; what doesn't
# is in a module of its own, in which the function of the line of the type is named. Where Go 1.19 is installed
# oracle/relations asks its go/types too.
set -u
top=$(cd "$(dirname "${BASH_SOURCE[0]}")/.." && pwd)
. "$top/tests/show.sh"
. "$top/tests/counts.sh"
cd "$top" || exit 1

declared=$'package p

type D int

type P []string

type Q []string

type R struct{ a, b int }

type S struct{ a, c int }
'
mkdir "$work/module"
printf 'module m\n\ngo 1.22\n' >"$work/module/go.mod"
printf '%s' "$declared" >"$work/module/types.go"

# checked TEXT: what is answered of the module with this text in main.go.
checked() {
    printf 'package p\n\n%s\n' "$1" >"$work/module/main.go"
    "$show" check "$work/module" 2>&1
}

types=() values=() signs=()
while IFS=$'\t' read -r type value line; do
    types+=("$type") values+=("$value") signs+=("$line")
done <tests/relations.txt

all=
number=0
# relates HOLDS TEXT: a function with this text, which is typed or isn't.
relates() {
    number=$((number + 1))
    local function="func f$number() {"$'\n\t'"$2"$'\n}'
    if [ "$1" = yes ]; then
        all+=$function$'\n\n'
    elif [ "$(checked "$function")" = "gofix: 401 main.go:3:1: not typed" ]; then
        pass
    else
        fail "$2 is typed"
    fi
}

for ((from = 0; from < 20; from++)); do
    for ((to = 0; to < 16; to++)); do
        sign=${signs[from]:to:1}
        if ((from < 16)); then
            relates "$([ "$sign" = = ] && echo yes)" "var x *${types[to]} = new(${types[from]}); _ = x"
        fi
        relates "$([[ $sign == [=a] ]] && echo yes)" "var x ${types[to]} = ${values[from]}; _ = x"
        type=${types[to]}
        [[ $type == "*"* ]] && type="($type)"
        relates "$([ "$sign" != - ] && echo yes)" "_ = $type(${values[from]})"
    done
done
got=$(checked "$all")
if [ "$got" = typed ]; then pass; else fail "what holds: $got"; fi

if [[ $(go version 2>/dev/null) == *" go1.19"* ]]; then
    export GO111MODULE=off GOCACHE="$work/cache"
    got=$(go run tests/oracle/relations/main.go 2>&1)
    if [ $? = 0 ]; then pass; else fail "oracle/relations: $got"; fi
else
    echo "Go 1.19 isn't installed, so it wasn't asked of the types of relations.txt"
fi

echo "$passed passed, $failed failed"
[ "$failed" = 0 ]
