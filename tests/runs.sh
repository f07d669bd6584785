#!/usr/bin/env bash
# Runs gofix on each module of runs/ and ends with one line 'N passed, N failed'.
#
# A file runs/NAME.txtar is a text archive as Go's own tests have them: after a comment, sections that begin with a line
# `-- PATH --`. The module's files come first, then `words` (one a line), `status`, `report` (all that is written), and
# `want/PATH` for each file that is changed; every other file stays. What a later version will answer stands under `later/`.
# What is done once is done: where a run ends with status 0, a second one inlines nothing.
set -u
top=$(cd "$(dirname "${BASH_SOURCE[0]}")/.." && pwd)
. "$top/tests/counts.sh"

for archive in "$top"/tests/runs/*.txtar; do
    name=$(basename "$archive" .txtar)
    all="$work/$name.all" module="$work/$name" wanted="$work/$name.wanted"
    unpack "$archive" "$all"
    mkdir -p "$module" "$wanted"
    (cd "$all" && find . -type f ! -path './want/*' ! -path './later/*' ! -name words ! -name status ! -name report \
        -exec cp --parents {} "$module" \;)
    cp -r "$module/." "$wanted"
    [ -d "$all/want" ] && cp -r "$all/want/." "$wanted"
    mapfile -t words <"$all/words"
    (cd "$module" && "$top/gofix" "${words[@]}") >"$work/report" 2>&1
    status=$?
    if [ "$status" = "$(cat "$all/status")" ]; then pass; else fail "$name: status $status"; fi
    if diff "$all/report" "$work/report"; then pass; else fail "$name: report"; fi
    if diff -r "$wanted" "$module"; then pass; else fail "$name: files"; fi
    [ "$status" = 0 ] || continue
    (cd "$module" && "$top/gofix" "${words[@]}") >"$work/report" 2>&1
    if [ $? = 0 ] && ! grep -q ': inlined ' "$work/report" && diff -r "$wanted" "$module"; then pass; else fail "$name: again"; fi
done

echo "$passed passed, $failed failed"
[ "$failed" = 0 ]
