#!/bin/sh
# Checks that what is generated is up to date.
#
#     tools/test/generated.sh
#
# It runs each script of tools/gen, tools/proof/cost_table.py and tools/proof/unstated.py, and compares what they write
# with what is committed. It also compares the copies that must be equal.
#
# The output is the difference. The status is 1 if there is one. It needs git, g++, python3, and `rt` for `rt fmt`. The
# scripts that need cargo are left out if there is none; the output names them.

cd "$(dirname "$0")/../.." || exit 2
for script in tools/gen/*.py tools/gen/*.sh tools/proof/cost_table.py tools/proof/unstated.py; do
    case $script in
        */echo_golden.sh | */frames_golden.sh)
            if ! command -v cargo >/dev/null; then
                echo "$script: not run, because there is no cargo"
                continue
            fi
            ;;
    esac
    "$script" >/dev/null || exit 1
done
cmp jobs/examples/hello.job crates/meshrun/data/hello.job || exit 1
# A clone may belong to another user than the one who runs this.
git -c safe.directory='*' diff --exit-code -- crates/model_rows crates/run_tests/src/memory \
    crates/explore_tests/src/tests crates/draw_html/src/template.rt \
    docs/ARCHITECTURE.md docs/INTERLEAVINGS.md docs/OTHERWISE.md docs/PROOF.md docs/PROOF_COST.md \
    jobs/explore 'jobs/*.echo' 'jobs/*.frames' histories
