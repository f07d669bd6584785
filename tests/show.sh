# Builds go_show where it isn't built. To be sourced, with the top folder in `top`; `show` is then the program.
show="$top/crates/go_show/out/go_show"

is_built() {
    [ -x "$show" ] && [ -z "$(find "$top/crates" "$top/crates.txt" -path '*/out' -prune -o -type f -newer "$show" \( -name '*.rt' -o -name crates.txt \) -print -quit)" ]
}

if ! is_built; then
    log=$(mktemp)
    (cd "$top/crates/go_show" && rt run -- tokens data/sample.go) >"$log" 2>&1 || true
    if ! is_built; then
        tail -n 20 "$log" >&2
        echo "go_show isn't built: $log" >&2
        exit 1
    fi
    rm -f "$log"
fi
