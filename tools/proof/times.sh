#!/bin/sh
# Prints what the proof of each crate costs.
#
#     tools/proof/times.sh [CRATE..]
#
# CRATE is by default each crate, lowest first. It works on a copy of the files that git tracks and of the results of
# earlier checks, and builds there what is missing. Each crate is then checked from scratch on one job, with its
# libraries built; if it has tests, by `rt check --test`.
#
# The output has a line for each crate: the processor seconds of the check, its functions and its lines of proof. Below
# it are the ten functions that took longest, each with its seconds. These are by the clock, from the times at which the
# check wrote its results, so on a busy machine they are too high.
#
# The status is 1 if a crate isn't proved; then the tool stops. It needs git and `rt`.
set -u
cd "$(dirname "$0")/../.." || exit 2

copy=$(mktemp -d)
trap 'rm -rf "$copy"' EXIT
git ls-files -z | xargs -0 cp --parents --preserve=timestamps -t "$copy"
for kept in crates/*/out; do
    [ ! -d "$kept" ] || cp -r --preserve=timestamps "$kept" "$copy/$kept"
done

python3 "$copy/tools/proof/measure.py" "$copy" "$@"
