#!/bin/sh
# Measures a round trip of `meshrun live`, next to one of a plain program that gives every line the same answer.
#
#     tools/bench/live.sh [PROGRAM [LINES]]
#
# PROGRAM is by default crates/meshrun/out/meshrun, and LINES 60,000; at most 65,000. tools/engines/live/round_trips.c
# drives both, five times by turns. In a round trip a line is written to a pipe, read and answered, and the answer is
# read; so most of the time is the pipes'.
#
# Each line of the output has a program and its least microseconds of a round trip; the line `ratio` has the ratio of
# the two. The status is 1 if a program ends early, and 2 if there is no program or round_trips.c can't be compiled. It
# needs a C compiler (CC, by default gcc).

. "$(dirname "$0")/../program.sh"
find_program "$1"
make_room
lines=${2:-60000}
trips=$room/round_trips
"${CC:-gcc}" -std=c99 -O2 -o "$trips" tools/engines/live/round_trips.c || exit 2
for _ in 1 2 3 4 5; do
    echo "meshrun $("$trips" "$lines" "$program" live)"
    echo "plain $("$trips" "$lines" "$trips" --answer)"
done | awk '
    NF < 2 { exit failed = 1 }
    !($1 in least) || $2 < least[$1] { least[$1] = $2 }
    END {
        if (failed) exit 1
        printf "%-10s %24s\n", "program", "microseconds a round trip"
        for (name in least) printf "%-10s %24.1f\n", name, least[name] / 1000
        printf "%-10s %24.2f\n", "ratio", least["meshrun"] / least["plain"]
    }
'
