#!/bin/sh
# Measures `meshrun check` and the plain engine on histories of overlapping calls, one after the other in one run.
#
#     tools/bench/calls.sh [PROGRAM [CALLS]]
#
# PROGRAM is by default crates/meshrun/out/meshrun, and CALLS 1,000,000. The plain engine is
# tools/engines/overlaps/reference.cpp, which tries the same effects in its mode `inside`. The histories are printed by
# tools/engines/linearize/long_history.py:
#
# - CALLS calls of 4 threads on at most 64 objects;
# - CALLS calls of 4 threads on one object;
# - a tenth of CALLS of 4 threads on one object, all of whose calls are pending at once; and the same of 8 threads;
# - a twenty-fifth of CALLS of 16 threads, and of 24 threads, on the same 8 bytes of one object.
#
# Each line of the output has the history, its calls, the program's calls a processor second and its peak of memory in
# MB, the same two figures of the plain engine, the ratio of the seconds, and how many configurations the plain engine
# met. The status is 1 if a history isn't linearizable for both, and 2 if there is no program or the engine can't be
# compiled. It needs GNU time and a C++ compiler (CXX, by default g++).

. "$(dirname "$0")/../program.sh"
find_program "$1"
make_room
"${CXX:-g++}" -O2 -std=c++17 -o "$room/reference" tools/engines/overlaps/reference.cpp || exit 2
exec python3 tools/bench/calls_times.py "$program" "$room" "${2:-1000000}"
