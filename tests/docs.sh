#!/usr/bin/env bash
# Checks the documents and ends with one line 'N passed, N failed': each name that they quote is somewhere in the repository,
# docs/DEFINITIONS.md is what docs/definitions.py makes of the specs as they stand, and each definition has words.
set -u
top=$(cd "$(dirname "${BASH_SOURCE[0]}")/.." && pwd)
. "$top/tests/counts.sh"

if python3 "$top/tests/names.py" >"$work/missing"; then pass; else
    fail "names that are nowhere"
    cat "$work/missing"
fi
python3 "$top/docs/definitions.py" >"$work/definitions"
if cmp -s "$work/definitions" "$top/docs/DEFINITIONS.md"; then pass; else fail "docs/DEFINITIONS.md isn't what docs/definitions.py makes"; fi
if grep '^- Without words: ' "$work/definitions"; then fail "definitions without words"; else pass; fi

echo "$passed passed, $failed failed"
[ "$failed" = 0 ]
