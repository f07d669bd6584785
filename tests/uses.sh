#!/usr/bin/env bash
# Runs `go_show uses` on the texts of uses.txt and ends with one line 'N passed, N failed'.
#
# A line of uses.txt is what is wanted, a tab, and the text with its newlines and tabs escaped. Wanted is of each import
# the name by which the file knows it, and whether a declaration uses it, by the Go specification (Import declarations;
# Declarations and scope; Composite literals).
set -u
top=$(cd "$(dirname "${BASH_SOURCE[0]}")/.." && pwd)
. "$top/tests/show.sh"
. "$top/tests/counts.sh"

number=0
while IFS=$'\t' read -r wanted text; do
    number=$((number + 1))
    printf '%b' "$text" >"$work/file.go"
    got=$("$show" uses "$work/file.go" 2>&1)
    code=$?
    got=${got//$'\n'/, }
    if [ "$code" = 0 ] && [ "$got" = "$wanted" ]; then
        pass
    else
        fail "line $number: status $code, $got, wanted $wanted"
    fi
done <"$top/tests/uses.txt"

echo "$passed passed, $failed failed"
[ "$failed" = 0 ]
