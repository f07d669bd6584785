#!/usr/bin/env bash
# Runs `go_show tree` on the texts of trees.txt, on each front of a file and on texts that nest as deeply as a file may, and
# ends with one line 'N passed, N failed'.
#
# A line of trees.txt is what is wanted, a tab, whether gofmt is of the same mind (`=`) or the language is another there
# (`-`), a tab, and the file's text with its newlines and tabs escaped. Where gofmt is installed it is
# asked too; where it isn't, the texts that it wasn't asked of are counted.
set -u
top=$(cd "$(dirname "${BASH_SOURCE[0]}")/.." && pwd)
. "$top/tests/show.sh"
. "$top/tests/counts.sh"

# tree: what is answered for the file at hand, and the status.
tree() {
    got=$("$show" tree "$work/file.go" 2>&1)
    code=$?
}

# wants NAME ANSWER: the answer for the file at hand.
wants() {
    tree
    if [ "$code" = 0 ] && [ "$got" = "$2" ]; then pass; else fail "$1: status $code, $got, wanted $2"; fi
}

gofmt_reads() { gofmt -e -l "$work/file.go" >"$work/gofmt.txt" 2>&1; }

number=0
unasked=0
while IFS=$'\t' read -r wanted mind text; do
    number=$((number + 1))
    printf '%b' "$text" >"$work/file.go"
    wants "line $number" "$wanted"
    [ "$mind" = "=" ] || continue
    if ! command -v gofmt >/dev/null; then
        unasked=$((unasked + 1))
        continue
    fi
    case $wanted in
        read | "too deep "*) if gofmt_reads; then pass; else fail "line $number: gofmt doesn't read it"; fi ;;
        *) if gofmt_reads; then fail "line $number: gofmt reads it"; else pass; fi ;;
    esac
done <"$top/tests/trees.txt"
[ "$unasked" = 0 ] || echo "gofmt isn't installed, so it wasn't asked of $unasked texts"

# each front of a file has an answer, and the whole file is read
size=$(wc -c <"$top/tests/front.go")
for ((length = 0; length <= size; length++)); do
    head -c "$length" "$top/tests/front.go" >"$work/file.go"
    tree
    if [ "$code" = 0 ] && [[ $got =~ ^(read|(not read|bad token|not UTF-8|unsupported|too deep) [0-9]+)$ ]]; then pass; else fail "the first $length bytes: status $code, $got"; fi
done
if [ "$got" = read ]; then pass; else fail "the whole file: $got"; fi

repeated() { for ((i = 0; i < $2; i++)); do printf '%s' "$1"; done; }

# nested NAME TIMES FRONT OPEN INNER CLOSE BACK: the text that nests so many times is read, and once more is too deep.
nested() {
    local times
    for times in "$2" $(($2 + 1)); do
        {
            printf 'package p\n%b' "$3"
            repeated "$4" "$times"
            printf '%s' "$5"
            repeated "$6" "$times"
            printf '%b' "$7"
        } >"$work/file.go"
        tree
        case $times,$code,$got in
            "$2,0,read" | "$(($2 + 1)),0,too deep "*) pass ;;
            *) fail "$1, $times times: status $code, $got" ;;
        esac
    done
}

body='func f() {\n\t'
end='\n}\n'
nested "parentheses" 393 "${body}x = " '(' 1 ')' "$end"
nested "blocks" 396 "$body" '{' '' '}' "$end"
nested "arguments" 198 "$body" 'f(' '' ')' "$end"
nested "indexes" 196 "${body}x = " 'a[' 1 ']' "$end"
nested "slices" 131 "${body}x = " 'a[:' 1 ']' "$end"
nested "signs" 393 "${body}x = " '- ' 1 '' "$end"
nested "conversions" 131 "${body}x = " '[]a(' 1 ')' "$end"
nested "elements" 393 "${body}x = T" '{' '' '}' "$end"
nested "composite literals" 197 "${body}x = " 'T{' '' '}' "$end"
nested "keys and values" 130 "${body}x = T" '{a: ' 1 '}' "$end"
nested "literals of functions" 131 "$body" 'func() { ' '' '}()' "$end"
nested "deferred literals" 98 "$body" 'defer func() { ' '' '}()' "$end"
nested "conditions" 132 "$body" 'if a {' '' '}' "$end"
nested "branches" 98 "${body}if a {}" ' else if a {}' '' '' "$end"
nested "loops" 396 "$body" 'for ; ; {' '' '}' "$end"
nested "switches" 99 "$body" 'switch { default: ' '' '}' "$end"
nested "labels" 197 "$body" 'a: ' 'x++' '' "$end"
nested "slice types" 397 'var x ' '[]' int '' '\n'
nested "map types" 198 'var x ' 'map[int]' int '' '\n'
nested "struct types" 132 'var x ' 'struct{a ' int '}' '\n'

# doubled DEPTH: structs of two names that nest so deeply. Names that share a type have a copy of it each, so their tree has
# 2^DEPTH types and more.
doubled() {
    {
        printf 'package p\ntype T '
        repeated 'struct{a, b ' "$1"
        printf 'int'
        repeated '}' "$1"
        printf '\n'
    } >"$work/file.go"
}

# bounded DEPTH STATUS ANSWER: the file is answered so within ten seconds of the processor and 2 GiB of memory.
bounded() {
    doubled "$1"
    got=$(ulimit -v 2097152; ulimit -t 10; "$show" tree "$work/file.go" 2>&1)
    code=$?
    if [ "$code" = "$2" ] && [[ $got == *"$3" ]]; then pass; else fail "structs of two names, $1 deep: status $code, $got"; fi
}

bounded 10 0 read
bounded 30 1 "out of memory"

echo "$passed passed, $failed failed"
[ "$failed" = 0 ]
