#!/usr/bin/env bash
# Runs gofix on modules that no text archive can hold: texts that aren't UTF-8, files that are too large or would be, files
# that are too many, and a use that takes too many steps. Ends with one line 'N passed, N failed'.
set -u
top=$(cd "$(dirname "${BASH_SOURCE[0]}")/.." && pwd)
. "$top/tests/counts.sh"

# module NAME: goes to a new folder with a go.mod and a main.go.
module() {
    mkdir "$work/$1" && cd "$work/$1" || exit 1
    printf 'module example.com/m\n\ngo 1.22\n' >go.mod
    printf 'package main\n\nfunc main() {\n}\n' >main.go
}

# files: the files of the current folder, each with its sum.
files() { find . -type f -exec cksum {} + | sort -k 3; }

# refuses NAME LINE: gofix --fix writes this line in the current folder, ends with 1 and changes no file.
refuses() {
    local before got status
    before=$(files)
    got=$("$top/gofix" --fix 2>&1)
    status=$?
    if [ "$status" = 1 ] && [ "$got" = "$2" ] && [ "$(files)" = "$before" ]; then
        pass
    else
        fail "$1: status $status, output: $got"
    fi
}

# accepts NAME: gofix --fix writes nothing in the current folder, ends with 0 and changes no file.
accepts() {
    local before got status
    before=$(files)
    got=$("$top/gofix" --fix 2>&1)
    status=$?
    if [ "$status" = 0 ] && [ "$got" = "" ] && [ "$(files)" = "$before" ]; then
        pass
    else
        fail "$1: status $status, output: $got"
    fi
}

# filled FILE SIZE: a comment at the end makes the file as long as this.
filled() {
    printf '//' >>"$1"
    head -c $(($2 - $(stat -c %s "$1"))) /dev/zero | tr '\0' x >>"$1"
}

module bytes
printf 'package main\n\nvar s = "\377"\n' >main.go
refuses "a byte that begins no character" "gofix: 101 main.go:3:10: not UTF-8"
mkdir sub
printf 'package sub\n\n// \303' >sub/sub.go
printf 'package main\n\nfunc f() {\n\tgo f()\n}\n' >main.go
refuses "a character that is cut off, in a later file than a word that isn't supported" "gofix: 101 sub/sub.go:3:4: not UTF-8"
printf 'package main\n\nvar s = "\n' >main.go
refuses "a text without tokens in an earlier file" "gofix: 102 main.go:3:9: bad token"
printf 'package main_\377\n' >main_test.go
mkdir vendor
printf '\377' >vendor/vendor.go
printf 'package main\n\nfunc main() {\n}\n' >main.go
rm sub/sub.go
accepts "such texts in files that aren't selected"

module size
filled main.go 4194304
accepts "a file of 4 MiB"
printf x >>main.go
refuses "a file of a byte more" "gofix: 103 main.go: too large"
printf '\377' >a.go
rm go.mod
refuses "a file that is too large is told before what the files say" "gofix: 103 main.go: too large"

module sum
for name in a b c; do
    printf 'package main\n' >"$name.go"
    filled "$name.go" 4194304
done
printf 'package main\n' >d.go
filled d.go $((4194304 - $(stat -c %s go.mod) - $(stat -c %s main.go)))
accepts "16 MiB in all"
printf x >>d.go
refuses "a byte more in all: the file with which they are too long" "gofix: 103 main.go: too large"

# marked NAME: goes to a new folder with a use of a marked constant, whose name is four bytes longer.
marked() {
    module "$1"
    printf 'package main\n\nconst Pointer = 1\n\n//go:fix inline\nconst Ptr = Pointer\n\nfunc main() {\n\tprintln(Ptr)\n}\n' >main.go
}

marked result
filled main.go 4194304
refuses "a file that would have more than 4 MiB" "gofix: 501 main.go: bytes"

marked results
for name in a b c d; do printf 'package main\n' >"$name.go"; done
for name in a b c; do filled "$name.go" 4194304; done
filled d.go $((4194304 - $(stat -c %s go.mod) - $(stat -c %s main.go)))
refuses "files that would have more than 16 MiB in all" "gofix: 501 main.go: total"

module chain
{
    printf 'package main\n'
    for number in $(seq 0 1025); do printf '\n//go:fix inline\nconst A%s = A%s\n' "$number" $((number + 1)); done
    printf '\nconst A1026 = 1\n\nfunc main() {\n}\n'
} >main.go
refuses "a use that would take 1,025 steps" "gofix: 501 main.go: steps of one use"

module count
rm main.go
for number in $(seq 0 4094); do printf 'package m\n' >"f$(printf %04d "$number").go"; done
accepts "4,096 files"
printf '\377' >f4095.go
refuses "a file more" "gofix: 103 module: too large"
mv f4095.go f4095_test.go
accepts "a file more that isn't selected"

echo "$passed passed, $failed failed"
[ "$failed" = 0 ]
