#!/usr/bin/env bash
# Runs `go_show parts` on the texts of parts.txt and ends with one line 'N passed, N failed'.
#
# A line of parts.txt is what is wanted, a tab, and the text with its newlines and tabs escaped. Wanted are the names that
# each function declares and those that are free in each value of a variable, by the Go specification (Declarations and
# scope; Composite literals; Selectors; Labeled statements).
set -u
top=$(cd "$(dirname "${BASH_SOURCE[0]}")/.." && pwd)
. "$top/tests/show.sh"
. "$top/tests/counts.sh"

number=0
while IFS=$'\t' read -r wanted text; do
    number=$((number + 1))
    printf '%b' "$text" >"$work/file.go"
    got=$("$show" parts "$work/file.go" 2>&1)
    code=$?
    got=${got//$'\n'/, }
    if [ "$code" = 0 ] && [ "$got" = "$wanted" ]; then
        pass
    else
        fail "line $number: status $code, $got, wanted $wanted"
    fi
done <"$top/tests/parts.txt"

echo "$passed passed, $failed failed"
[ "$failed" = 0 ]
