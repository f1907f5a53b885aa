#!/bin/sh
# Measures a replay of three job files near 1 MiB, next to a plain engine's.
#
#     tools/bench/replay.sh [PROGRAM [RUNS]]
#
# PROGRAM is by default crates/meshrun/out/meshrun, and RUNS 21. The plain engine is tools/engines/replay, and the job
# files are those of tools/bench/replay_files.py. The runs of the two programs take turns.
#
# Each line of the output has a file, its bytes, and the medians of RUNS runs: processor and wall time in milliseconds,
# and page faults, of the program and of the plain engine. The last column is the ratio of the processor times. The
# status is 1 if the two print different answers or a run fails, and 2 if there is no program or no engine. It needs
# cargo.

. "$(dirname "$0")/../program.sh"
find_program "$1"
make_room
build_plain
python3 tools/bench/replay_files.py "$room" &&
    python3 tools/bench/replay_times.py "$program" "${2:-21}" "$plain" "$room"/*.job
