#!/usr/bin/env bash
# Runs `go_show tokens` on the texts of tokens.txt, which are the examples of the Go specification as Go's own
# go/scanner reads them, and texts that have no tokens, and ends with one line 'N passed, N failed'.
#
# A line of tokens.txt is what is wanted, a tab, and the text with its newlines, tabs and other bytes escaped. Wanted
# are the span and the kind of each token, or `BAD` or `NOTUTF8` with an offset, or `-` where there is no token.
set -u
top=$(cd "$(dirname "${BASH_SOURCE[0]}")/.." && pwd)
. "$top/tests/show.sh"
. "$top/tests/counts.sh"

# tokens: a token as START-END KIND, the tokens apart by commas.
tokens() {
    "$show" tokens "$work/file.go" 2>&1 |
        awk '{ if (NR > 1) printf ", "; if ($1 ~ /^[0-9]+$/) printf "%s-%s %s", $1, $2, $3; else printf "%s", $0 }'
}

number=0
while IFS=$'\t' read -r wanted text; do
    number=$((number + 1))
    printf '%b' "$text" >"$work/file.go"
    got=$(tokens)
    if [ "${got:--}" = "$wanted" ]; then pass; else fail "line $number: $got, wanted $wanted"; fi
done <"$top/tests/tokens.txt"

echo "$passed passed, $failed failed"
[ "$failed" = 0 ]
