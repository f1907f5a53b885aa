#!/bin/sh
# Measures how much longer programs take while examples/record_malloc.c records them.
#
#     tools/bench/record_malloc.sh [RUNS]
#
# RUNS is 3 by default. Each program runs RUNS times by itself and in each mode of the recorder, by turns. A program
# that isn't installed is left out: jq, perl, sqlite3, ruby, python3. The last one, `threads`, is tools/test/recorded.c:
# four threads that do nothing but allocate and free.
#
# A line of the output has the program and the calls that were recorded; the processor time of the program by itself in
# seconds, and the ratio to it with lines, with stamps, and with stamps of the time stamp counter; then the same by wall
# time. Each time is the least of the runs.
#
# The status is 1 if a program fails. It needs gcc.

cd "$(dirname "$0")/../.." || exit 2
. tools/program.sh
make_room
gcc -std=c99 -O2 -fPIC -shared -o "$room/record_malloc.so" examples/record_malloc.c -ldl -lpthread || exit 2
gcc -std=c99 -O2 -fno-builtin -pthread -o "$room/threads" tools/test/recorded.c || exit 2
exec python3 tools/bench/record_malloc_times.py "$room" "${1:-3}"
