#!/bin/sh
# Counts how often the bugs of examples/racing_real.c are found, and measures how long recording a call takes.
#
#     tools/bench/record.sh [PROGRAM [RUNS]]
#
# PROGRAM is by default crates/meshrun/out/meshrun, and RUNS 8. The driver runs RUNS times without a bug and with each
# bug, each time with another seed: 4 threads, 5,000 calls of each on 4 objects, with the C library's malloc, with
# jemalloc and with mimalloc (Debian: libjemalloc2 and libmimalloc2.0). An allocator that isn't installed is left out.
#
# A line of the first part has the allocator and the bug; in how many runs the bug struck; how many histories were
# linearizable, had a wrong call, and were undecided; the fewest pairs of calls on one object that overlapped in a run;
# and how many calls `check` judged a second, by processor time, in the histories that are linearizable.
#
# A line of the second part has the clock, the number of threads, and the processor time of a recorded call in
# nanoseconds, the least of 5 runs.
#
# The status is 1 if a history without a bug isn't linearizable, and 2 if there is no program. It needs gcc, GNU time
# and x86-64.

. "$(dirname "$0")/../program.sh"
find_program "$1"
make_room
for clock in COUNTER TSC; do
    gcc -std=gnu11 -O2 -pthread -DMESH_RECORD_$clock -o "$room/real_$clock" examples/racing_real.c || exit 2
    gcc -std=gnu11 -O2 -pthread -DMESH_RECORD_$clock -o "$room/calls_$clock" tools/bench/record_calls.c || exit 2
done
exec python3 tools/bench/record_times.py "$program" "$room" "${2:-8}"
