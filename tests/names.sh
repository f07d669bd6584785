#!/usr/bin/env bash
# Runs `go_show names` on the files of names/ and ends with one line 'N passed, N failed'.
#
# A line of the text beside a file is what go/types says that one use of a name in the file means: the offset of the use,
# the name, and `local`, `import` or `package` with the offset of the declaration, `predeclared` or `nothing`.
set -u
top=$(cd "$(dirname "${BASH_SOURCE[0]}")/.." && pwd)
. "$top/tests/show.sh"
. "$top/tests/counts.sh"
export LC_ALL=C

for source in "$top"/tests/names/*.go; do
    name=$(basename "$source" .go)
    "$show" names "$source" 2>&1 | sort >"$work/got.txt"
    sort "$top/tests/names/$name.txt" >"$work/wanted.txt"
    while IFS= read -r row; do fail "$name: $row"; done < <(comm -13 "$work/got.txt" "$work/wanted.txt")
    passed=$((passed + $(comm -12 "$work/got.txt" "$work/wanted.txt" | wc -l)))
done

echo "$passed passed, $failed failed"
[ "$failed" = 0 ]
