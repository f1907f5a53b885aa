#!/bin/sh
# Measures the cost of the lock: times of scripts on threads, next to those of their replay and to a plain engine's.
#
#     tools/bench/lock.sh [PROGRAM [RUNS]]
#
# PROGRAM is by default crates/meshrun/out/meshrun, and RUNS 21. There are three job files of the same 32,000 commands
# on 1, 2 and 4 workers, and three more of loads alone (tools/bench/lock_files.py). Each is run RUNS times in each of
# three ways: by `replay`, by `threads` without a round of meshing, and by `threads` with 20 rounds during the workers'
# commands. The plain engine, tools/engines/replay, runs each file in the same ways, by turns with the program.
#
# Each line of the output has a file, a way, and the medians of the processor time and the wall time in milliseconds.
# The lines of `threads` without a round also have how many nanoseconds more of wall time a command takes than in the
# replay: for the lock, the threads, and the one history that is made from journal and seats at the end. The same
# figures of the plain engine follow, and the ratio of the processor times.
#
# Run it on an idle machine. The status is 1 if the two print different answers or a run fails, and 2 if there is no
# program or no engine. It needs cargo.

. "$(dirname "$0")/../program.sh"
find_program "$1"
make_room
build_plain
python3 tools/bench/lock_files.py "$room" &&
    python3 tools/bench/lock_times.py "$program" "${2:-21}" "$plain" "$room"/*.job
