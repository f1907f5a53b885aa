#!/bin/sh
# Measures a search over as many candidates as a heap can have, on the calling thread and by workers, next to a plain
# engine.
#
#     tools/bench/search.sh
#
# The candidates are 4,096 groups of class 16, with one slot in 2 or one in 64 occupied. In the first case no candidate
# meshes with another, in the second most do.
#
# Each line of the output has how many slots there are for an occupied one, the rounds and the pairs found, and then
# microseconds. They are those of the view of the class, of a shuffle of its numbers, and of a search on the calling
# thread and by 1, 2 and 4 workers. The last two columns are the pairs and the search of the plain engine,
# tools/engines/search/reference.cpp, over random candidates of its own.
#
# The program, tools/bench/crates/search_times over `mesh_search`, runs five times, and the least of each figure is
# printed. The status is 1 if a program can't be built or run. It needs git, `rt` and a C++ compiler (CXX, by default
# g++).
set -u
cd "$(dirname "$0")/../.." || exit 1

room=$(mktemp -d) || exit 1
trap 'rm -rf "$room"' EXIT
"${CXX:-g++}" -O2 -std=c++17 -o "$room/reference" tools/engines/search/reference.cpp || exit 1
deps='model_words model_heap model_search mesh_class mesh_arena mesh_spans mesh_search rand_core rand_xoshiro anyhow'
crates='mesh_bits mesh_bins model_words model_memory model_heap model_search
    mesh_arena mesh_class mesh_spans mesh_search'
times=$(tools/bench/crate.sh search_times "$deps" $crates) || exit 1

{ "$room/reference" | sed 's/^/plain /'; printf '%s\n' "$times"; } | awk '
    $1 == "plain" { plain[$2 " " $3] = sprintf("%12d %10d", $4, $6); next }
    !($1 " " $2 in pairs) { names[++count] = $1 " " $2 }
    { name = $1 " " $2; pairs[name] = $3 }
    { for (i = 4; i <= 9; i++) if (!((name, i) in least) || $i < least[name, i]) least[name, i] = $i }
    END {
        printf "%11s %7s %6s %11s %8s %11s %9s %10s %10s %12s %10s\n", \
            "one slot in", "rounds", "pairs", "class_view", "shuffle", "search_one", \
            "1 worker", "2 workers", "4 workers", "plain: pairs", "search"
        for (k = 1; k <= count; k++) {
            split(names[k], shape, " ")
            printf "%11d %7d %6d", shape[1], shape[2], pairs[names[k]]
            printf " %11d %8d %11d", least[names[k], 4] / 1000, least[names[k], 5] / 1000, least[names[k], 6] / 1000
            printf " %9d %10d %10d", least[names[k], 7] / 1000, least[names[k], 8] / 1000, least[names[k], 9] / 1000
            printf " %s\n", plain[names[k]]
        }
    }
'
