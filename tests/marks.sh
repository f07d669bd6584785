#!/usr/bin/env bash
# Runs `go_show marks` on the texts of marks.txt and ends with one line 'N passed, N failed'.
#
# A line of marks.txt is what is wanted, a tab, and the text with its newlines, tabs and other bytes escaped. Wanted
# are the marks that mean something, each the offset of the marked name, its kind and the name, and then those that mean
# nothing, each with its offset and the reason; or `-` where there are none.
set -u
top=$(cd "$(dirname "${BASH_SOURCE[0]}")/.." && pwd)
. "$top/tests/show.sh"
. "$top/tests/counts.sh"

number=0
while IFS=$'\t' read -r wanted text; do
    number=$((number + 1))
    printf '%b' "$text" >"$work/file.go"
    got=$("$show" marks "$work/file.go" 2>&1)
    code=$?
    got=${got//$'\n'/, }
    if [ "$code" = 0 ] && [ "${got:--}" = "$wanted" ]; then
        pass
    else
        fail "line $number: status $code, $got, wanted $wanted"
    fi
done <"$top/tests/marks.txt"

echo "$passed passed, $failed failed"
[ "$failed" = 0 ]
