#!/usr/bin/env bash
# Builds the programs of the modules of runs/ that gofix rewrites, or will later, by Go itself, as they are and as they
# are wanted: what they print and how they end is the same. Ends with one line 'N passed, N failed'; where no Go is
# installed that builds them nothing is run, and it says how many are left out. (Go 1.21 builds no module whose go.mod
# names a later version.)
set -u
top=$(cd "$(dirname "${BASH_SOURCE[0]}")/.." && pwd)
. "$top/tests/counts.sh"
export GO111MODULE=on GOFLAGS=-mod=mod GOPROXY=off GOTOOLCHAIN=local GOCACHE="$work/cache"

# shown FOLDER: what each program of the module in the folder prints, without traces of where it panicked, and its status.
# Nothing where one isn't built.
shown() (
    cd "$1" || exit
    grep -rlx --include=*.go 'package main' . | xargs -r -n 1 dirname | sort -u | while IFS= read -r program; do
        go build -o "$work/program" "$program" || exit
        echo "$program"
        timeout 60 "$work/program" >"$work/printed" 2>&1
        code=$?
        sed '/^goroutine [0-9]/,$d' "$work/printed"
        echo "status $code"
    done
)

[[ $(go version 2>/dev/null) =~ \ go1\.(19|20|2[2-9]|[3-9][0-9]) ]] && builds=1
skipped=0
for archive in "$top"/tests/runs/*.txtar; do
    name=$(basename "$archive" .txtar)
    all="$work/$name"
    unpack "$archive" "$all"
    wanted=want
    [ -d "$all/want" ] || wanted=later
    [ -n "$(find "$all/$wanted" -name '*.go' 2>/dev/null)" ] || continue
    if [ -z "${builds-}" ]; then
        skipped=$((skipped + 1))
        continue
    fi
    cp -r "$all" "$all.after"
    cp -r "$all/$wanted/." "$all.after"
    rm -rf "$all/$wanted" "$all.after/$wanted"
    find "$all" "$all.after" -name '*_test.go' -delete # no part of a program
    shown "$all" >"$work/before"
    shown "$all.after" >"$work/after"
    if grep -q status "$work/before" && cmp -s "$work/before" "$work/after"; then
        pass
    else
        fail "$name: $(diff "$work/before" "$work/after")"
    fi
done
[ -n "${builds-}" ] || echo "No Go is installed that builds the programs of runs/, so $skipped modules were left out"

echo "$passed passed, $failed failed"
[ "$failed" = 0 ]
