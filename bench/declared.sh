#!/usr/bin/env bash
# Runs `go_show declared` on generated modules of 2,000, 4,000 and 8,000 constants of which each names the one before it, and
# prints the milliseconds of each, the least of five runs: declared in order of use; the other way round; and the other way
# round in a package whose first constant names one of another package, which stands there before what it names. Time is
# linear in the constants in each of them.
set -eu
top=$(cd "$(dirname "${BASH_SOURCE[0]}")/.." && pwd)
. "$top/tests/show.sh"
folder=$(mktemp -d)
trap 'rm -rf "$folder"' EXIT

# chain FIRST COUNT: so many constants, of which the first has this value and each other is one more than the one before it
chain() {
    awk -v first="$1" -v count="$2" 'BEGIN {
    printf "const C0 = %s\n", first
    for (i = 1; i < count; i++) printf "const C%d = C%d + 1\n", i, i - 1
    }'
}

# begin: an empty module
begin() {
    rm -rf "$folder/module"
    mkdir "$folder/module"
    printf 'module m\n\ngo 1.22\n' >"$folder/module/go.mod"
}

# least: the milliseconds of the fastest of five runs over the module
least() {
    local best= start end spent
    for _ in 1 2 3 4 5; do
        start=$(date +%s%N)
        "$show" declared "$folder/module" >/dev/null
        end=$(date +%s%N)
        spent=$(((end - start) / 1000000))
        if [ -z "$best" ] || [ "$spent" -lt "$best" ]; then best=$spent; fi
    done
    echo "$best"
}

# measured WORDS COUNT: prints the time, once the last constant of package m is seen to have its value
measured() {
    local found
    found=$("$show" declared "$folder/module" | grep -c ": const C$(($2 - 1)) untyped int = $(($2 - 1))\$") || true
    [ "$found" = 1 ] || { echo "$2 constants $1: the last one is missing"; exit 1; }
    echo "$2 constants $1: $(least) ms"
}

for count in 2000 4000 8000; do
    begin
    { printf 'package main\n\n'; chain 0 "$count"; } >"$folder/module/main.go"
    measured "in order of use" "$count"
    begin
    { printf 'package main\n\n'; chain 0 "$count" | tac; } >"$folder/module/main.go"
    measured "the other way round" "$count"
    begin
    mkdir "$folder/module/a"
    printf 'package a\n\nconst First = zero\n\nconst zero = 0\n' >"$folder/module/a/a.go"
    { printf 'package main\n\nimport "m/a"\n\n'; chain a.First "$count" | tac; } >"$folder/module/main.go"
    measured "behind another package, the other way round" "$count"
done
