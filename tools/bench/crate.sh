#!/bin/sh
# Builds a program that measures times, runs it five times, and prints its output.
#
#     tools/bench/crate.sh NAME DEPS CRATE..
#
# NAME is a crate in tools/bench/crates, and DEPS its libraries as one argument, in the form of a line of crates.txt.
# The crate is proved, built and run in a copy of the files that git tracks, with the results of earlier checks of each
# CRATE. Its files end in `.in` here, because the gate allows no sources that it doesn't check. arena.sh, index.sh and
# search.sh use this script.
#
# The output is the program's. The status is 1 if the program can't be built or run. It needs git and `rt`.
set -u
cd "$(dirname "$0")/../.." || exit 1
name=$1
deps=$2
shift 2

copy=$(mktemp -d)
trap 'rm -rf "$copy"' EXIT
git ls-files -z | xargs -0 cp --parents -t "$copy"
for crate; do
    [ ! -d "crates/$crate/out" ] || cp -r "crates/$crate/out" "$copy/crates/$crate/"
done
mv "$copy/tools/bench/crates/$name" "$copy/crates/$name"
find "$copy/crates/$name" -name '*.in' | while read -r file; do
    mv "$file" "${file%.in}"
done
echo "$name: $deps" >> "$copy/crates.txt"

program=$copy/crates/$name/out/$name
(cd "$copy/crates/$name" && rt run) > "$copy/log" 2>&1
if [ ! -x "$program" ]; then
    tail -n 20 "$copy/log" >&2
    exit 1
fi

for _ in 1 2 3 4 5; do
    "$program" || exit 1
done
