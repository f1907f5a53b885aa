#!/bin/sh
# Builds the reference engine, and rewrites the golden files in histories/savings.
#
#     tools/gen/savings_golden.sh
#
# For each NAME.args and NAME.CASE.args, it runs tools/engines/savings/reference.cpp on NAME.history with the options in
# that file, a word a line. The standard output is written to NAME.out or NAME.CASE.out, and the standard error to the
# .err file; an empty file is removed.
#
# A line is printed only for a run that fails: the .args file and its standard error. The status is 1 if a run ends with
# a status other than 0, 2 or 4, and 2 if the engine can't be compiled. It needs a C++ compiler (CXX, by default g++).
#
# The histories:
#
# - shell_cache: dash, recorded while it sets 290 variables of 100 to 800 bytes and unsets most of them, in three waves.
#   Meshing saves pages.
# - tar: GNU tar, recorded while it archives a folder of some 30 files. Meshing saves nothing.
# - aliases: printed by tools/engines/savings/write_trace.py; has aliases, refused entries, loads, stores and objects
#   above 2,048 bytes.
# - more_with_meshing, large, empty, no_bytes, freed_again: written by hand. In the first, the meshing heap ends with
#   more pages.
# - teardown: printed by a loop. Of 96 objects three of four are freed, and then the rest.
#
# In the recorded histories cells and addresses are renumbered to shorten the lines. All but no_bytes and freed_again
# are legal for `meshrun check`.

cd "$(dirname "$0")/../.." || exit 2
room=$(mktemp -d) || exit 2
trap 'rm -rf "$room"' EXIT
"${CXX:-g++}" -O2 -std=c++17 -Wall -Wextra -o "$room/reference" tools/engines/savings/reference.cpp || exit 2

failed=0
for args in histories/savings/*.args; do
    golden=${args%.args}
    # shellcheck disable=SC2046 # the words of the options
    "$room/reference" "${args%%.*}.history" $(cat "$args") >"$golden.out" 2>"$golden.err"
    case $? in
        0 | 2 | 4) ;;
        *)
            echo "$args: $(cat "$golden.err")" >&2
            failed=1
            ;;
    esac
    [ -s "$golden.out" ] || rm "$golden.out"
    [ -s "$golden.err" ] || rm "$golden.err"
done
exit $failed
