#!/bin/sh
# Measures `meshrun savings` and the plain engine on the same histories, by turns in one run.
#
#     tools/bench/savings.sh [PROGRAM]
#
# PROGRAM is by default crates/meshrun/out/meshrun. The plain engine is tools/engines/savings/reference.cpp. The
# histories are recorded here by examples/record_malloc.c, from a C++ compiler, jq, perl, python3, ruby and sqlite3. A
# program that isn't installed is left out.
#
# Each line of the output has the recorded program, its calls, the calls that each engine follows in a processor second
# with its peak of memory in MB, and the ratio of the seconds. The seconds are the least of seven runs. The status is 1
# if the two print different tables, and 2 if there is no program or one can't be compiled. It needs GNU time, a C++
# compiler (CXX, by default g++) and a C compiler (CC, by default gcc).

. "$(dirname "$0")/../program.sh"
find_program "$1"
make_room
"${CXX:-g++}" -O2 -std=c++17 -o "$room/reference" tools/engines/savings/reference.cpp || exit 2
"${CC:-gcc}" -std=c99 -O2 -fPIC -shared -o "$room/record.so" examples/record_malloc.c -ldl -lpthread || exit 2

# record NAME ONLY WORD..: runs a command, and records the process of the program ONLY to NAME.history.
record() {
    name=$1 only=$2
    shift 2
    command -v "$1" >/dev/null || return 0
    LD_PRELOAD=$room/record.so RECORD=$room/$name.history RECORD_ONLY=$only "$@" >"$room/output" 2>&1 </dev/null
}
record compiler cc1plus "${CXX:-g++}" -std=c++17 -O1 -c -o "$room/engine.o" tools/engines/savings/reference.cpp
# shellcheck disable=SC2016
record perl perl perl -e 'for $n (1 .. 400000) { $h{$n % 50000} = "x" x ($n % 97) } print scalar keys %h'
record python3 python3 python3 -c '
kept = {}
for n in range(1_200_000):
    kept[n * 7919 % 60_000] = bytes(1 + n * 31 % 900)'

record jq jq jq -n '[range(200000) | tostring] | sort | length'
record ruby ruby ruby -e 'h = {}; 600000.times { |n| h[n % 50000] = "x" * (n % 97) }; puts h.size'
record sqlite3 sqlite3 sqlite3 :memory: 'create table t(a integer primary key, b text);
with recursive n(i) as (select 1 union all select i + 1 from n where i < 200000)
insert into t select i, hex(i * 7919) from n; create index u on t(b); select count(*) from t where b like "3%";'

exec python3 tools/bench/savings_times.py "$program" "$room"
