#!/usr/bin/env bash
# Runs `gofix --fix` on the module examples/library with each front of each of its files in place of that file: the answer
# is Done, or a refusal of one line that changes nothing. Ends with one line 'N passed, N failed'.
set -u
top=$(cd "$(dirname "${BASH_SOURCE[0]}")/.." && pwd)
. "$top/tests/counts.sh"

# (asked by itself, since `gofix` looks at all texts of the program each time)
"$top/gofix" --help >/dev/null 2>&1
program="$top/crates/gofix_cli/out/gofix_cli"

cp -r "$top/examples/library" "$work/old" && rm "$work/old/report.txt" && cd "$work/old" || exit 1
while read -r path; do
    size=$(wc -c <"$top/examples/library/$path")
    wrong=0
    for length in $(seq 0 "$size"); do
        head -c "$length" "$top/examples/library/$path" >"$work/old/$path"
        rm -rf "$work/new" && cp -r "$work/old" "$work/new" && cd "$work/new" || exit 1
        "$program" --fix >"$work/out" 2>&1
        status=$?
        if [ "$status" = 1 ]; then
            grep -q '^gofix: [1-5][0-9][0-9] ' "$work/out" && [ "$(wc -l <"$work/out")" = 1 ] && diff -r "$work/old" "$work/new" >/dev/null
        else
            [ "$status" = 0 ]
        fi || { wrong=$((wrong + 1)) && echo "$path, $length bytes: status $status, output: $(head -n 2 "$work/out")"; }
    done
    cp "$top/examples/library/$path" "$work/old/$path"
    if [ "$wrong" = 0 ]; then pass; else fail "fronts of $path: $wrong"; fi
done < <(find . -type f | sort)

echo "$passed passed, $failed failed"
[ "$failed" = 0 ]
