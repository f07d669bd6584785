#!/usr/bin/env bash
# Runs the built program as a user would, in folders of its own, and ends with one line 'N passed, N failed'.
set -u
top=$(cd "$(dirname "${BASH_SOURCE[0]}")/.." && pwd)
. "$top/tests/counts.sh"

# expect NAME STATUS OUTPUT WORDS..: runs gofix in the current folder.
expect() {
    local name=$1 status=$2 output=$3 got code
    shift 3
    got=$("$top/gofix" "$@" 2>&1)
    code=$?
    if [ "$code" = "$status" ] && [ "$got" = "$output" ]; then
        pass
    else
        fail "$name: status $code (wanted $status), output: $got"
    fi
}

# same NAME FILE WANTED: the file has exactly the wanted bytes.
same() { if cmp -s "$2" "$3"; then pass; else fail "$1"; fi }

# each shipped example has the report that stands beside it
for example in constants library; do
    cp -r "$top/examples/$example" "$work/$example" && cd "$work/$example" && rm report.txt || exit 1
    expect "the example $example" 0 "$(cat "$top/examples/$example/report.txt")" --fix
done

# a name that isn't UTF-8 can't be listed (no text archive can hold it, so it is no file of runs/)
mkdir "$work/two" && cd "$work/two" || exit 1
cp "$top/examples/constants/go.mod" "$top/examples/constants/main.go" .
: >"$(printf 'a\377.go')"
expect "a name that isn't UTF-8" 1 "gofix: can't list files" --fix
same "a folder that can't be listed stays" main.go "$top/examples/constants/main.go"

# add SCRIPT: another script of this folder, and what it counts.
add() {
    bash "$top/tests/$1" >"$work/counted" 2>&1
    sed '$d' "$work/counted"
    if [[ $(tail -n 1 "$work/counted") =~ ^([0-9]+)\ passed,\ ([0-9]+)\ failed$ ]]; then
        passed=$((passed + BASH_REMATCH[1]))
        failed=$((failed + BASH_REMATCH[2]))
    else
        fail "$1 counts nothing: $(tail -n 1 "$work/counted")"
    fi
}

# modules, what their programs print, what is refused of them, what they declare, rows of types and how types stand to one
# another, modules that are too large, folders in which the system fails, fronts of files, tokens and trees of files, files
# printed, what names mean, parts, marks and imports of files, and what documents name
add runs.sh
add outputs.sh
add modules.sh
add declared.sh
add types.sh
add relations.sh
add limits.sh
add folders.sh
add fronts.sh
add tokens.sh
add trees.sh
add print.sh
add names.sh
add parts.sh
add marks.sh
add uses.sh
add imports.sh
add docs.sh

# the shipped examples, by their script
if bash "$top/examples/run.sh" constants | grep -qF '+	println(Pointer)'; then pass; else fail "examples/run.sh constants"; fi
if bash "$top/examples/run.sh" library | grep -qF '+	println(paper.Margin, text.Wide)'; then pass; else fail "examples/run.sh library"; fi

echo "$passed passed, $failed failed"
[ "$failed" = 0 ]
