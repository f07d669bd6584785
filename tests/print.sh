#!/usr/bin/env bash
# Runs `go_show print` on files, and ends with one line 'N passed, N failed'. Of the files in print/ the text beside each is
# wanted. What is printed of these, of the files of examples/, of those of runs/ that are read, and of the texts of trees.txt
# that are read, is read and printed again, which gives the same text. (Whether a file of runs/ is read, its run shows.)
set -u
top=$(cd "$(dirname "${BASH_SOURCE[0]}")/.." && pwd)
. "$top/tests/show.sh"
. "$top/tests/counts.sh"

# printed NAME FILE WANTED: what is printed of the file is the wanted text.
printed() {
    if "$show" print "$2" >"$work/got.go" 2>&1 && cmp -s "$work/got.go" "$3"; then
        pass
    else
        fail "$1"
        diff "$3" "$work/got.go" | head -n 20
    fi
}

# again NAME FILE: the file is read, and so is what is printed of it, which is printed as it stands.
again() {
    if [ "$("$show" tree "$2" 2>&1)" != read ]; then
        fail "$1: isn't read"
        return
    fi
    "$show" print "$2" >"$work/once.go" 2>&1
    printed "$1" "$work/once.go" "$work/once.go"
}

for source in "$top"/tests/print/*.go; do
    name=$(basename "$source" .go)
    printed "$name" "$source" "$top/tests/print/$name.txt"
    printed "$name, its text" "$top/tests/print/$name.txt" "$top/tests/print/$name.txt"
done

for archive in "$top"/tests/runs/*.txtar; do unpack "$archive" "$work/runs/$(basename "$archive" .txtar)"; done
while IFS= read -r source; do
    case $source in
        "$work"/runs/*) [ "$("$show" tree "$source" 2>&1)" = read ] || continue ;;
    esac
    again "${source#"$work"/}" "$source"
done < <(find "$work/runs" "$top/examples" "$top/tests/front.go" -name '*.go' | sort)

number=0
while IFS=$'\t' read -r wanted _ text; do
    number=$((number + 1))
    [ "$wanted" = read ] || continue
    printf '%b' "$text" >"$work/file.go"
    again "line $number of trees.txt" "$work/file.go"
done <"$top/tests/trees.txt"

# of a file without a tree it is said why
printf 'package p\nfunc main(' >"$work/file.go"
printf 'not read 10\n' >"$work/wanted"
printed "a file without a tree" "$work/file.go" "$work/wanted"

echo "$passed passed, $failed failed"
[ "$failed" = 0 ]
