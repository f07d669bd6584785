# Counts what passes and fails, makes a folder to work in, and unpacks text archives. To be sourced.
passed=0
failed=0
work=$(mktemp -d)
trap 'rm -rf "$work"' EXIT

pass() { passed=$((passed + 1)); }
fail() { failed=$((failed + 1)); echo "FAILED: $*"; }

# unpack ARCHIVE FOLDER: the archive's sections as files.
unpack() {
    awk -v top="$2" '
        /^-- .* --$/ { file = top "/" substr($0, 4, length($0) - 6); folder = file; sub(/\/[^\/]*$/, "", folder)
            system("mkdir -p \"" folder "\""); printf "" >file; next }
        file { print >file }' "$1"
}
