#!/bin/sh
# Measures what the span index does for each object, and its counts, with full groups and with retired group numbers
# before the open group, next to a plain engine.
#
#     tools/bench/index.sh
#
# Each line of the output has the numbers of full groups and of retired numbers, and then nanoseconds: of `open_slot`
# alone; of `open_slot`, `occupy`, `record` and `vacate` together; and of these with `totals`. The last three columns
# are the same figures of the plain engine (tools/engines/parts). None of them should grow with the groups; nothing
# checks that.
#
# The program, tools/bench/crates/index_times over `mesh_spans`, runs five times, and the least of each figure is
# printed. The status is 1 if a program can't be built or run. It needs git, `rt` and a C++ compiler (CXX, by default
# g++).
set -u
cd "$(dirname "$0")/../.." || exit 1

room=$(mktemp -d) || exit 1
trap 'rm -rf "$room"' EXIT
"${CXX:-g++}" -O2 -std=c++17 -o "$room/reference" tools/engines/parts/reference.cpp || exit 1
deps='model_words model_heap mesh_class mesh_arena mesh_spans anyhow'
crates='mesh_bits mesh_bins model_words model_memory model_heap model_search mesh_arena mesh_class mesh_spans'
times=$(tools/bench/crate.sh index_times "$deps" $crates) || exit 1

{ "$room/reference" | grep '^index'; printf '%s\n' "$times"; } | awk '
    $1 == "index" { plain[$2 " " $3] = sprintf("%12d %8d %8d", $4, $5, $6); next }
    { name = $1 " " $2 }
    !(name in open) { names[++count] = name; open[name] = $3; pass[name] = $4; totals[name] = $5 }
    $3 < open[name] { open[name] = $3 }
    $4 < pass[name] { pass[name] = $4 }
    $5 < totals[name] { totals[name] = $5 }
    END {
        printf "%11s %8s %10s %14s %11s %12s %8s %8s\n", \
            "full groups", "retired", "open_slot", "and an object", "and totals", "plain: slot", "object", "totals"
        for (i = 1; i <= count; i++) {
            name = names[i]
            split(name, shape, " ")
            printf "%11d %8d %10d %14d %11d %s\n", \
                shape[1], shape[2], open[name], pass[name], totals[name], plain[name]
        }
    }
'
