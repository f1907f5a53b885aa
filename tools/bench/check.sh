#!/bin/sh
# Measures `meshrun check` and the plain engine on the same histories, one after the other in one run.
#
#     tools/bench/check.sh [PROGRAM [ENTRIES]]
#
# PROGRAM is by default crates/meshrun/out/meshrun, and ENTRIES 2,000,000. The plain engine is
# tools/engines/check/reference.cpp. The histories have up to 10,000 live objects: `new` and `free` alone, with cells
# that are used again or with new ones; and the latter with stores and loads between them.
#
# Each line of the output has the history, the program's entries a processor second and its peak of memory in MB, the
# same two figures of the plain engine, and the ratio of the seconds. The status is 1 if the two print different
# verdicts, and 2 if there is no program or the engine can't be compiled. It needs GNU time and a C++ compiler (CXX, by
# default g++).

. "$(dirname "$0")/../program.sh"
find_program "$1"
make_room
"${CXX:-g++}" -O2 -std=c++17 -o "$room/reference" tools/engines/check/reference.cpp || exit 2
exec python3 tools/bench/check_times.py "$program" "$room" "${2:-2000000}"
