#!/bin/sh
# Builds the reference engine, and rewrites the golden files in jobs/explore and jobs/explore/verdicts.
#
#     tools/gen/explore_golden.sh
#
# For each NAME.args of jobs/explore, it runs tools/engines/explore/reference.cpp on NAME.job with the options in
# NAME.args, a word a line, and writes the standard output to NAME.out. If some mesh begins in no interleaving,
# NAME.unbegun has the lines of a verdict about that.
#
# Each NAME.args of jobs/explore/verdicts has all words of a verdict, a word a line: first the job, then the options. The
# standard output is written to NAME.out, the status to NAME.status, and the standard error of a fault to NAME.err. The
# listing that a verdict expects, NAME.expect, is written by hand.
#
# The engine is plain C++ and shares no code with the program.
#
# A line is printed only for a run that fails: NAME.args and its standard error. The status is 1 if a listing ends with a
# status other than 0, or a verdict with one other than 0, 2 and 3. It is 2 if the engine can't be compiled. It needs a
# C++ compiler (CXX, by default g++).

cd "$(dirname "$0")/../.." || exit 2
room=$(mktemp -d) || exit 2
trap 'rm -rf "$room"' EXIT
"${CXX:-g++}" -O2 -std=c++17 -o "$room/reference" tools/engines/explore/reference.cpp || exit 2

failed=0
for args in jobs/explore/*.args; do
    golden=${args%.args}
    # shellcheck disable=SC2046 # the words of the options
    if ! "$room/reference" "$golden.job" $(cat "$args") >"$golden.out" 2>"$room/errors" ||
        ! "$room/reference" "$golden.job" $(cat "$args") -b >"$golden.unbegun" 2>"$room/errors"; then
        echo "$args: $(cat "$room/errors")" >&2
        failed=1
    fi
    [ -s "$golden.unbegun" ] || rm "$golden.unbegun"
done
for args in jobs/explore/verdicts/*.args; do
    golden=${args%.args}
    set --
    while IFS= read -r word; do
        set -- "$@" "$word"
    done <"$args"
    "$room/reference" "$@" >"$golden.out" 2>"$golden.err"
    status=$?
    echo $status >"$golden.status"
    case $status in
        0 | 3) rm "$golden.err" ;;
        2) ;;
        *)
            echo "$args: $(cat "$golden.err")" >&2
            failed=1
            ;;
    esac
done
exit $failed
