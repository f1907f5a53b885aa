#!/bin/sh
# Measures how long an arena of 16 pages and one of 4,096, all of them taken, need to free a page and take the lowest
# free one, next to a plain engine.
#
#     tools/bench/arena.sh
#
# Each line of the output has a number of taken pages, and the nanoseconds of `give` and `take` together, of the arena
# and of the plain engine (tools/engines/parts). Most of them go into filling the taken page with zeros. The time should
# not grow with the pages; nothing checks that.
#
# The program, tools/bench/crates/arena_times over `mesh_arena`, runs five times, and the least of each figure is
# printed. The status is 1 if a program can't be built or run. It needs git, `rt` and a C++ compiler (CXX, by default
# g++).
set -u
cd "$(dirname "$0")/../.." || exit 1

room=$(mktemp -d) || exit 1
trap 'rm -rf "$room"' EXIT
"${CXX:-g++}" -O2 -std=c++17 -o "$room/reference" tools/engines/parts/reference.cpp || exit 1
times=$(tools/bench/crate.sh arena_times 'mesh_arena anyhow' mesh_bins mesh_arena) || exit 1

{ "$room/reference" | grep '^arena'; printf '%s\n' "$times"; } | awk '
    $1 == "arena" { plain[$2] = $3; next }
    !($1 in least) { pages[++count] = $1; least[$1] = $3 }
    $3 < least[$1] { least[$1] = $3 }
    END {
        printf "%11s %15s %8s\n", "taken pages", "give and take", "plain"
        for (i = 1; i <= count; i++) printf "%11d %15d %8d\n", pages[i], least[pages[i]], plain[pages[i]]
    }
'
