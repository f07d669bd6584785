#!/usr/bin/env bash
# Asks `go_show check` of the rows of types/rows.txt and ends with one line 'N passed, N failed'.
#
# A row is `typed`, or the place in main.go of the declaration that isn't; a tab; `=` where go/types of Go 1.19 is of
# the same mind, or `-` and why the language is another there; a tab; and what stands behind `package main` in main.go,
# with its newlines, tabs and backslashes escaped. types/set.go is another file of the package, and types/lib.go is the
# package m/lib. Where Go 1.19 is installed it is asked of each row too, and of the modules of declared.txt.
set -u
top=$(cd "$(dirname "${BASH_SOURCE[0]}")/.." && pwd)
. "$top/tests/show.sh"
. "$top/tests/counts.sh"
cd "$top" || exit 1

mkdir -p "$work/module/lib"
printf 'module m\n\ngo 1.22\n' >"$work/module/go.mod"
cp tests/types/set.go "$work/module/set.go"
cp tests/types/lib.go "$work/module/lib/lib.go"

# unescaped TEXT: the text with its newlines, tabs and backslashes.
unescaped() {
    local text=${1//'\\'/$'\001'}
    text=${text//'\n'/$'\n'}
    text=${text//'\t'/$'\t'}
    printf '%s\n' "${text//$'\001'/'\'}"
}

# check WANTED TEXT: what is answered of the module with this text in main.go, within ten seconds of the processor and
# 2 GiB of memory: `typed`, or the refusal of the place, of which the grammar's has another number.
check() {
    local wanted='^typed$' status=0 got code
    { printf 'package main\n\n' && unescaped "$2"; } >"$work/module/main.go"
    if [ "$1" != typed ]; then
        wanted="^gofix: (401 main\\.go:$1: not typed|111 main\\.go:$1: not read)\$"
        status=1
    fi
    got=$(ulimit -v 2097152; ulimit -t 10; "$show" check "$work/module" 2>&1)
    code=$?
    if [ "$code" = "$status" ] && [[ $got =~ $wanted ]]; then
        pass
    else
        fail "line $number of types/rows.txt: status $code, $got, not $1"
    fi
}

form=$'^(typed|[0-9]+:[0-9]+)\t(=|- [^\t]+)\t([^\t]+)$'
number=0
while IFS= read -r row; do
    number=$((number + 1))
    case $row in "#"*) continue ;; esac
    if [[ $row =~ $form ]]; then
        check "${BASH_REMATCH[1]}" "${BASH_REMATCH[3]}"
    else
        fail "line $number of types/rows.txt: $row"
    fi
done <tests/types/rows.txt

# alike WHAT: the program of oracle/ of this name finds no difference without a reason.
alike() {
    go run "tests/oracle/$1/main.go" >"$work/answer" 2>&1
    if [ $? = 0 ]; then pass; else fail "oracle/$1: $(cat "$work/answer")"; fi
}

if [[ $(go version 2>/dev/null) == *" go1.19"* ]]; then
    export GO111MODULE=off GOCACHE="$work/cache"
    alike table
    alike declared
else
    echo "Go 1.19 isn't installed, so it wasn't asked of the rows of types/rows.txt and of the modules of declared.txt"
fi

echo "$passed passed, $failed failed"
[ "$failed" = 0 ]
