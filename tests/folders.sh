#!/usr/bin/env bash
# Runs gofix in folders with links and bits, and where the system fails a call, and ends with one line 'N passed, N failed'.
set -u
top=$(cd "$(dirname "${BASH_SOURCE[0]}")/.." && pwd)
. "$top/tests/counts.sh"

old=$'package main\n\nconst Pointer = 1\n\n//go:fix inline\nconst Ptr = Pointer\n\nfunc main() {\n\tprintln(Ptr)\n}\n'
new=${old/"println(Ptr)"/"println(Pointer)"}
part=$'package main\n\nfunc part() {\n\tprintln(Ptr)\n}\n'
report=$'main.go:9:10: inlined m.Ptr as const\npart.go:4:10: inlined m.Ptr as const'

# module: a new folder with a module of two files that change, which is the working directory then.
module() {
    cd "$work" && rm -rf module && mkdir module && cd module || exit 1
    printf 'module m\n\ngo 1.22\n' >go.mod
    printf '%s' "$old" >main.go
    printf '%s' "$part" >part.go
}

# is NAME WHAT WANTED
is() { if [ "$2" = "$3" ]; then pass; else fail "$1: $2, not $3"; fi }

# ends NAME STATUS OUTPUT COMMAND..
ends() {
    local name=$1 status=$2 output=$3 got code
    shift 3
    got=$("$@" 2>&1)
    code=$?
    is "$name, the status" "$code" "$status"
    is "$name, the output" "$got" "$output"
}

# bytes NAME FILE WANTED: the file has exactly these bytes.
bytes() { if printf '%s' "$3" | cmp -s - "$2"; then pass; else fail "$1"; fi }

# a link is no file of the module, and what an earlier run left beside a file is never written through; the bits stay
module
mkdir vendor
printf 'left out' >vendor/b.go
ln -s main.go link.go
ln -s vendor/b.go main.go.gofix-new
chmod 604 main.go
ends "a folder with links" 0 "$report" "$top/gofix" --fix
bytes "a file beside links" main.go "$new"
bytes "what a link beside a file leads to" vendor/b.go 'left out'
is "a link in the folder" "$(readlink link.go)" main.go
is "the bits of a file" "$(stat -c %a main.go)" 604
is "the files afterwards" "$(echo *)" "go.mod link.go main.go part.go vendor"

# the first file of two is replaced, the second isn't
module
mkdir part.go.gofix-new
ends "a file that can't be replaced" 1 "gofix: can't replace part.go" "$top/gofix" --fix
bytes "the file before it" main.go "$new"
bytes "the file itself" part.go "$part"

# without --fix nothing is changed, and a use that would be replaced is told by the status
module
ends "a folder that isn't to be fixed" 3 "$report" "$top/gofix"
bytes "its first file" main.go "$old"

# a report that can't be written
if [ -c /dev/full ]; then
    module
    "$top/gofix" --fix >/dev/full 2>&1
    is "a report that can't be written" $? 1
    bytes "the file that it tells of" main.go "$new"
    module
    "$top/gofix" >/dev/full 2>&1
    is "a report alone that can't be written" $? 1
    bytes "the file that it would tell of" main.go "$old"
fi

# gofix as a user who isn't root
cp "$top/crates/gofix_cli/out/gofix_cli" "$work/gofix_cli"
chmod 755 "$work" "$work/gofix_cli"
user=()
[ "$(id -u)" = 0 ] && user=(setpriv --reuid=65534 --regid=65534 --clear-groups)

# a file that can't be read
module
[ "$(id -u)" = 0 ] && chown -R 65534:65534 .
chmod 000 main.go
ends "a file that can't be read" 1 "gofix: can't read main.go" "${user[@]}" "$work/gofix_cli" --fix
chmod 644 main.go
bytes "a file that couldn't be read" main.go "$old"

# a folder in which no file can be made
chmod 555 .
ends "a folder that is kept" 1 "gofix: can't replace main.go" "${user[@]}" "$work/gofix_cli" --fix
chmod 755 .
bytes "a file of a folder that is kept" main.go "$old"

# a folder in which a new file can be made and can't take the old one's place: the new one goes again
if [ "$(id -u)" = 0 ]; then
    module
    chmod 1777 .
    ends "a file of another user" 1 "gofix: can't replace main.go" "${user[@]}" "$work/gofix_cli" --fix
    bytes "the file of another user" main.go "$old"
    is "the files beside it" "$(echo *)" "go.mod main.go part.go"
fi

echo "$passed passed, $failed failed"
[ "$failed" = 0 ]
