#!/usr/bin/env bash
# Runs `go_show imports` on the texts of imports.txt and `go_show need` on those of needs.txt, and ends with one line
# 'N passed, N failed'.
#
# A line of imports.txt is which imports come and go, a tab, the text with its newlines, tabs and other bytes escaped, a
# tab, and the text that is wanted. One of needs.txt is the wanted name, ` new` behind it where an import has to come, a
# tab, what is asked (the offset of the place, the package's path and own name, and names), a tab, and the text.
set -u
top=$(cd "$(dirname "${BASH_SOURCE[0]}")/.." && pwd)
. "$top/tests/show.sh"
. "$top/tests/counts.sh"

number=0
while IFS=$'\t' read -r asked before after; do
    number=$((number + 1))
    printf '%b' "$before" >"$work/file.go"
    printf '%b' "$after" >"$work/wanted.go"
    read -ra words < <(printf '%b\n' "$asked")
    "$show" imports "$work/file.go" "${words[@]}" >"$work/got.go" 2>&1
    code=$?
    if [ "$code" = 0 ] && cmp -s "$work/got.go" "$work/wanted.go"; then
        pass
    else
        fail "line $number of imports.txt: status $code"
        diff "$work/wanted.go" "$work/got.go" | head -n 20
    fi
done <"$top/tests/imports.txt"

number=0
while IFS=$'\t' read -r wanted asked text; do
    number=$((number + 1))
    printf '%b' "$text" >"$work/file.go"
    read -ra words <<<"$asked"
    got=$("$show" need "$work/file.go" "${words[@]}" 2>&1)
    code=$?
    if [ "$code" = 0 ] && [ "$got" = "$wanted" ]; then
        pass
    else
        fail "line $number of needs.txt: status $code, $got, wanted $wanted"
    fi
done <"$top/tests/needs.txt"

echo "$passed passed, $failed failed"
[ "$failed" = 0 ]
