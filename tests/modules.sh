#!/usr/bin/env bash
# Runs `go_show check` and gofix --fix on the modules of modules.txt and ends with one line 'N passed, N failed'.
#
# A line that begins with no blank is what both are to write; or `nothing`, where gofix is to write nothing, of a module that
# is well typed. The lines behind it, which begin with a tab, are the module's files: each its path and, behind a bar, its
# text, in which \n is a newline and \t a tab.
set -u
top=$(cd "$(dirname "${BASH_SOURCE[0]}")/.." && pwd)
. "$top/tests/show.sh"
. "$top/tests/counts.sh"

row=0
check() {
    [ -n "${wanted-}" ] || return 0
    row=$((row + 1))
    got=$("$show" check "$work/module" 2>&1)
    if [ "$got" = "${wanted/#nothing/typed}" ]; then pass; else fail "module $row, checked: $got, not $wanted"; fi
    [ "$wanted" = nothing ] && wanted=
    got=$(cd "$work/module" && "$top/gofix" --fix 2>&1)
    if [ "$got" = "$wanted" ]; then pass; else fail "module $row: $got, not $wanted"; fi
}

while IFS= read -r line; do
    case $line in
    "" | "#"*) ;;
    $'\t'*)
        line=${line#$'\t'}
        file="$work/module/${line%%|*}"
        mkdir -p "$(dirname "$file")"
        printf '%b' "${line#*|}" >"$file"
        ;;
    *)
        check
        rm -rf "$work/module"
        mkdir "$work/module"
        wanted=$line
        ;;
    esac
done <"$top/tests/modules.txt"
check

echo "$passed passed, $failed failed"
[ "$failed" = 0 ]
