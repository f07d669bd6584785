#!/usr/bin/env bash
# Copies an example to a temporary folder, runs `gofix --fix` there, and shows the report and what changed.
set -u
here=$(cd "$(dirname "${BASH_SOURCE[0]}")" && pwd)
name=${1:-constants}
if [ ! -d "$here/$name" ]; then
    echo "usage: examples/run.sh NAME, where NAME is one of: $(cd "$here" && ls -d */ | tr -d / | tr '\n' ' ')" >&2
    exit 2
fi

folder=$(mktemp -d)
trap 'rm -rf "$folder"' EXIT
cp -r "$here/$name" "$folder/new"
rm -f "$folder/new/report.txt"
cp -r "$folder/new" "$folder/old"

(cd "$folder/new" && "$here/../gofix" --fix)
status=$?
(cd "$folder" && diff -ru old new)
exit "$status"
