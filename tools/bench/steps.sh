#!/bin/sh
# Measures reports on lists of steps by the program and by the plain engine, one after the other in one run.
#
#     tools/bench/steps.sh [PROGRAM]
#
# PROGRAM is by default crates/meshrun/out/meshrun. The plain engine is tools/engines/otherwise/reference.cpp.
#
# Each line of the output has the setting and the list, the states, and for the program its processor seconds, states a
# second and bytes a state, and the ratio of the seconds to the engine's. The bytes are those of the peak of memory
# above that of a report on one state. The status is 1 if the two print different texts, and 2 if there is no program or
# the engine can't be compiled. It needs GNU time and a C++ compiler (CXX, by default g++).

. "$(dirname "$0")/../program.sh"
find_program "$1"
make_room
"${CXX:-g++}" -O2 -std=c++20 -o "$room/reference" tools/engines/otherwise/reference.cpp || exit 2
exec python3 tools/bench/steps_times.py "$program" "$room"
