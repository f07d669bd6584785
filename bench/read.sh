#!/usr/bin/env bash
# Reads generated files of Go source of about 1, 2 and almost 4 MiB with `go_show tokens` and `go_show tree`, and prints the
# milliseconds that each took, the least of five runs, and the nanoseconds a token, which stay about the same where time is
# linear in the tokens. Where Go is installed, its go/scanner and go/parser read the same bytes in the same run. A last file has
# structs of two names that nest: it says how long a text is answered whose types would be copied without end.
set -eu
top=$(cd "$(dirname "${BASH_SOURCE[0]}")/.." && pwd)
. "$top/tests/show.sh"
folder=$(mktemp -d)
trap 'rm -rf "$folder"' EXIT
file="$folder/large.go"

# generate SIZE: functions up to about so many bytes
generate() {
    awk -v most="$1" 'BEGIN {
    print "package large\n"
    for (i = 0; size < most; i++) {
        text = sprintf("// Step%d adds what the rows hold to a running total, and says how far it came.\nfunc Step%d(rows []Row, limit int) (total int, name string) {\n\tfor i, row := range rows {\n\t\tif row.Width >= 0x%x && i&^3 != limit<<2 {\n\t\t\ttotal += row.Width*%d - len(row.Body[1:])\n\t\t\tcontinue\n\t\t}\n\t\tswitch row.Kind {\n\t\tcase '"'"'a'"'"', '"'"'\\n'"'"':\n\t\t\tname = \"row \\\"%d\\\"\\t\" + row.Body\n\t\tdefault:\n\t\t\treturn total, `none`\n\t\t}\n\t}\n\treturn total, name /* all */\n}\n\n", i, i, i, i, i)
        size += length(text)
        printf "%s", text
    }
    }' >"$file"
}

# least COMMAND..: the milliseconds of the fastest of five runs
least() {
    local best= start end spent
    for _ in 1 2 3 4 5; do
        start=$(date +%s%N)
        "$@" >/dev/null
        end=$(date +%s%N)
        spent=$(((end - start) / 1000000))
        if [ -z "$best" ] || [ "$spent" -lt "$best" ]; then best=$spent; fi
    done
    echo "$best"
}

reads_by_go() { :; }
if command -v go >/dev/null && (cd "$top/bench/goread" && go build -o "$folder/goread" .); then
    reads_by_go() { echo "    Go: $("$folder/goread" "$file") ms"; }
fi

for size in 1045000 2090000 4180000; do
    generate "$size"
    answer=$("$show" tree "$file")
    [ "$answer" = read ] || { echo "the generated file isn't read: $answer"; exit 1; }
    tokens=$("$show" tokens "$file" | wc -l)
    spent=$(least "$show" tree "$file")
    echo "$(wc -c <"$file") bytes, $tokens tokens: go_show tokens $(least "$show" tokens "$file") ms, tree $spent ms, $((spent * 1000000 / tokens)) ns a token"
    reads_by_go
done

# nested DEPTH: structs of two names that nest so deeply; their tree has 2^DEPTH nodes and more
nested() {
    {
        printf 'package p\n\ntype T '
        for ((i = 0; i < $1; i++)); do printf 'struct{ a, b '; done
        printf 'int'
        for ((i = 0; i < $1; i++)); do printf ' }'; done
        printf '\n'
    } >"$file"
}

for depth in 10 20 30 100; do
    nested "$depth"
    echo "structs of two names, $depth deep, $(wc -c <"$file") bytes: $(least "$show" tree "$file") ms, $("$show" tree "$file" 2>&1 || true)"
done
