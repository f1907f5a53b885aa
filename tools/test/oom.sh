#!/bin/sh
# Makes each allocation of the built programs fail once, and checks that the run ends as the contracts say.
#
#     tools/test/oom.sh [CRATES]
#
# CRATES is the folder of the crates, by default crates; the programs are CRATES/NAME/out/NAME. tools/test/refuse.c is
# compiled to a library that is loaded into each run. It makes the first allocation fail in one run, the second in the
# next, and so on until a run meets no failure. A case passes if
#
# - each of its runs ends by itself, within 20 seconds, with an output and a status that the case allows;
# - each run frees as many bytes as it allocated;
# - each run reports the failure of an allocation that the program itself requested (`spare` below has the exceptions);
# - at least one run allocated something, and at least one reported a failure.
#
# The case `threads` is run twice. The second time, only the first thread's allocations fail, and other threads' frees
# are delayed, so a thread that nobody joined is noticed.
#
# Each case is a line of the output: `ok` or `FAILED`, its name, how many runs it took, how many of them reported a
# failure, and the allocations and bytes of the last run. The last line counts the cases. The status is 1 if a case
# fails, and 2 if there are no programs or the C compiler fails. It needs the programs that `rt ci` builds, a C compiler
# (CC, by default cc) and glibc.

crates=${1:-$(dirname "$0")/../../crates}
case $crates in
    /*) ;;
    *) crates=$PWD/$crates ;;
esac
cd "$(dirname "$0")/../.." || exit 2
small=$crates/memory_tests/out/memory_tests
meshrun=$crates/meshrun/out/meshrun
for program in "$small" "$meshrun"; do
    if [ ! -x "$program" ]; then
        echo "no program at $program: run \`rt ci\`, or \`rt run\` in its crate" >&2
        exit 2
    fi
done

room=$(mktemp -d) || exit 2
trap 'rm -rf "$room"' EXIT
library=$room/refuse.so
"${CC:-cc}" -O1 -Wall -shared -fPIC -o "$library" tools/test/refuse.c || exit 2

# The seconds that a run may take.
limit=20
# A case ends after this many allocations, and fails.
most=20000
passed=0
failed=0
# HOLD=1 if only the first thread's allocations fail and other threads' frees are delayed (refuse.c); else empty.
hold=

# run N WORD..: runs a program with its arguments, and makes its N-th allocation fail. Sets `status`, and the counts of
# refuse.c: `refused`, `own`, `allocations`, `bytes`, `freed`, `stretches`, `within` and `threads`.
run() {
    number=$1
    shift
    rm -f "$room/counts"
    timeout "$limit" env $hold REFUSE="$number" REFUSE_FILE="$room/counts" LD_PRELOAD="$library" "$@" \
        >"$room/output" 2>"$room/errors" </dev/null
    status=$?
    refused=none
    [ ! -f "$room/counts" ] ||
        read -r _ refused _ own _ allocations _ bytes _ freed _ stretches _ within _ threads <"$room/counts"
}

# is_line FILE TEXT: whether the file contains this line and nothing else.
is_line() {
    [ "$(cat "$1")" = "$2" ] && [ "$(wc -l <"$1")" -eq 1 ]
}

# begins FILE: whether the output is the first lines of the file, each of them whole.
begins() {
    size=$(wc -c <"$room/output")
    head -c "$size" "$1" | cmp -s - "$room/output" &&
        { [ "$size" -eq 0 ] || [ -z "$(tail -c 1 "$room/output")" ]; }
}

# Whether the run reported an allocation failure.
is_reported() {
    grep -q 'out of memory\|thread fault\|run fault\|: done, [0-9]* refused' "$room/output" "$room/errors"
}

# spare WORD..: runs a program with arguments that make it read them and do little else, and sets `spared` to the number
# of its allocations. If the list of the arguments can't grow by as much as it asks for, std asks for less and reports
# nothing. So a run passes without a report if one of the first `spared` allocations fails.
spare() {
    run 0 "$@"
    spared=$allocations
}

# The functions below print what is wrong with the end of a run, or nothing.

# A run of a case of memory_tests.
case_fault() {
    [ "$status" -eq 0 ] || echo " status $status"
    ! grep -q '^WRONG' "$room/output" || echo " $(grep '^WRONG' "$room/output")"
    last=$(tail -n 1 "$room/output")
    case $name/$last in
        heap/"heap: done, 1 refused" | book/"book: done, 1 refused" | seats/"seats: done, 1 refused") ;;
        search/"search: thread fault" | threads/"threads: thread fault") ;;
        */"$name: done" | */"$name: out of memory" | */"words: out of memory") ;;
        *) echo " another end: $last" ;;
    esac
    [ "$refused" -eq 1 ] || [ "$last" = "$name: done" ] || echo " $last, but no allocation failed"
    case $name in
        mesh)
            [ "$last" != "mesh: done" ] || [ "$stretches/$within" = 1/0 ] ||
                echo " $within allocations in $stretches stretches"
            ;;
        # Two threads for each round of each of the ten classes, and one round for a class without candidates. The last
        # class has two rounds in the first search and three in the second: 2 * (9 + 2) + 2 * (9 + 3).
        search) [ "$last" != "search: done" ] || [ "$threads" -eq 46 ] || echo " $threads threads instead of 46" ;;
    esac
}

# A run that prints the file $wanted with status 0 if no allocation fails.
replay_fault() {
    if [ "$status" -eq 0 ]; then
        cmp -s "$room/output" "$wanted" && [ ! -s "$room/errors" ] || echo " another output"
    else
        [ "$status" -eq 1 ] || echo " status $status"
        is_line "$room/errors" "out of memory" || echo " another error line"
        begins "$wanted" || echo " an output that isn't the first lines, each whole"
    fi
    [ "$refused" -eq 1 ] || [ "$status" -eq 0 ] || echo " an error, but no allocation failed"
}

# A run of `check` that prints the file $wanted with status 3 if no allocation fails.
verdict_fault() {
    if [ -s "$room/errors" ]; then
        [ "$status" -eq 1 ] || echo " status $status"
        is_line "$room/errors" "out of memory" || echo " another error line"
        begins "$wanted" || echo " an output that isn't the first lines, each whole"
        [ "$refused" -eq 1 ] || echo " an error, but no allocation failed"
    else
        [ "$status" -eq 3 ] || echo " status $status"
        cmp -s "$room/output" "$wanted" || echo " another output"
    fi
}

# A run of `threads`. A failure while the run is completed is a `run fault`; one before that is `out of memory` or a
# `thread fault`.
threads_fault() {
    if [ "$status" -eq 0 ]; then
        cmp -s "$room/output" jobs/examples/threads.out && [ ! -s "$room/errors" ] || echo " another output"
    else
        [ "$status" -eq 1 ] || echo " status $status"
        is_line "$room/errors" "out of memory" || is_line "$room/errors" "thread fault" ||
            is_line "$room/errors" "run fault" || echo " another error line"
        [ ! -s "$room/output" ] || echo " an output although the run failed"
    fi
    [ "$refused" -eq 1 ] || [ "$status" -eq 0 ] || echo " an error, but no allocation failed"
}

# refuse_each NAME JUDGE WORD..: runs a case until no allocation fails. JUDGE is one of the functions above.
refuse_each() {
    name=$1 judge=$2
    shift 2
    fault=
    runs=0
    wrong=0
    stopped=0
    begun=0
    n=1
    while :; do
        run "$n" "$@"
        runs=$((runs + 1))
        case $refused in
            0 | 1)
                found=$($judge | tr -d '\n')
                [ "$bytes" -eq "$freed" ] || found="$found $bytes bytes allocated and $freed freed"
                if is_reported; then
                    stopped=$((stopped + 1))
                    [ ! -s "$room/output" ] || begun=$((begun + 1))
                elif [ "$own" -eq 1 ] && [ "$n" -gt "$spared" ]; then
                    found="$found the failure was not reported"
                fi
                ;;
            *) found=" status $status, and no counts" ;;
        esac
        if [ -n "$found" ]; then
            wrong=$((wrong + 1))
            [ "$wrong" -gt 3 ] || fault="$fault allocation $n:$found;"
            case $refused in 0 | 1) ;; *) break ;; esac
        fi
        [ "$refused" -eq 1 ] || break
        n=$((n + 1))
        if [ "$n" -gt "$most" ]; then
            fault="$fault no end after $most allocations;"
            break
        fi
    done
    summary="$runs runs, $stopped reported a failure, $allocations allocations and $bytes bytes in the last run"
    [ "$stopped" -gt 0 ] && [ "$allocations" -gt 0 ] && [ "$bytes" -gt 0 ] ||
        fault="$fault no failure was reported, or nothing was allocated;"
    [ -z "$hold" ] || summary="$summary; only the first thread's allocations fail, other threads' frees are delayed"
    if [ -z "$fault" ]; then
        passed=$((passed + 1))
        echo "ok: $name: $summary"
    else
        failed=$((failed + 1))
        echo "FAILED: $name: $summary; $wrong wrong runs:$fault"
    fi
}

spare "$small" "no case"
for name in heap book mesh views seats search threads; do
    refuse_each "$name" case_fault "$small" "$name"
done
hold=HOLD=1
refuse_each threads case_fault "$small" threads
hold=
spare "$meshrun" replay "$room/no file"
wanted=jobs/golden/small_steps/worked_mesh.out
refuse_each "meshrun replay" replay_fault "$meshrun" replay jobs/golden/small_steps/worked_mesh.job
# More answers than one write contains, and then searches, which allocate. So some of these runs fail after they wrote
# a part of their output.
loads=200
searches=20
{
    printf 'mesh 1\npages 4\nhistory 1000\nworkers 1\nworker 0\nnew 0 64 0\n'
    yes 'get 0 0 32' | head -n $loads
    echo plan
    yes 'run 0' | head -n $((loads + 1))
    yes 'pair 64 1 0' | head -n $searches
    echo end
} >"$room/long.job"
{
    echo 'object 0 at 1000'
    yes "bytes $(printf '%064d' 0)" | head -n $loads
    yes 'found 0 probes 0' | head -n $searches
} >"$room/long.out"
wanted=$room/long.out
refuse_each "meshrun replay of $loads loads" replay_fault "$meshrun" replay "$room/long.job"
if [ "$begun" -eq 0 ]; then
    failed=$((failed + 1))
    echo "FAILED: no run wrote a part of its output before an allocation failed"
fi
printf 'history 1\n0 new 0 64 0 -> object 0 at 1000\n0 put 0 0 6869 -> done\n0 get 0 0 2 -> bytes 6869\n' \
    >"$room/short.history"
{
    printf 'mesh 1\npages 4\nhistory 10\nworkers 1\nworker 0\nnew 0 64 0\nput 0 0 6869\nget 0 0 2\nplan\n'
    yes 'run 0' | head -n 3
    echo end
} >"$room/short.job"
wanted=$room/short.history
spare "$meshrun" replay "$room/no file" --history
refuse_each "meshrun replay --history" replay_fault "$meshrun" replay "$room/short.job" --history
echo 'legal 33 entries' >"$room/legal.out"
wanted=$room/legal.out
spare "$meshrun" check "$room/no file"
refuse_each "meshrun check" replay_fault "$meshrun" check histories/each_command.history
overlapping=histories/overlapping
wanted=$overlapping/calls_that_touch.out
refuse_each "meshrun check of overlapping calls" replay_fault "$meshrun" check $overlapping/calls_that_touch.history
wanted=$overlapping/new_byte_then_old.out
refuse_each "meshrun check of a lost store" verdict_fault "$meshrun" check $overlapping/new_byte_then_old.history
"$meshrun" check $overlapping/calls_that_touch.history --order >"$room/ordered.history"
wanted=$room/ordered.history
# A list that can't grow by as much as it asks for asks for less, so a run may succeed although an allocation failed.
spared=$most
refuse_each "meshrun check --order" \
    replay_fault "$meshrun" check $overlapping/calls_that_touch.history --order
wanted=$overlapping/store_of_4096_bytes.out
refuse_each "meshrun check of long accesses" replay_fault "$meshrun" check $overlapping/store_of_4096_bytes.history
wanted=$overlapping/last_of_4096_bytes_differs.out
refuse_each "meshrun check of a long load that differs" \
    verdict_fault "$meshrun" check $overlapping/last_of_4096_bytes_differs.history
digits=$(printf '%08192d' 7)
{
    printf 'history 1\n0 new 0 5000 0 -> object 0 at 1000\n0 put 0 100 %s -> done\n' "$digits"
    printf '0 copy 0 200 0 100 4096 -> done\n0 get 0 200 4096 -> bytes %s\n' "$digits"
} >"$room/copied.history"
echo 'legal 4 entries' >"$room/copied.out"
wanted=$room/copied.out
refuse_each "meshrun check of a long copy" replay_fault "$meshrun" check "$room/copied.history"
savings=histories/savings/more_with_meshing
wanted=$savings.out
spare "$meshrun" savings "$room/no file"
# shellcheck disable=SC2046 # the words of the options
refuse_each "meshrun savings" replay_fault "$meshrun" savings $savings.history $(cat $savings.args)
"$meshrun" savings $savings.history --svg >"$room/savings.svg"
wanted=$room/savings.svg
spare "$meshrun" savings "$room/no file" --svg
refuse_each "meshrun savings --svg" replay_fault "$meshrun" savings $savings.history --svg
"$meshrun" draw jobs/examples/hello.job >"$room/hello.svg"
wanted=$room/hello.svg
spare "$meshrun" draw "$room/no file"
refuse_each "meshrun draw" replay_fault "$meshrun" draw jobs/examples/hello.job
wanted=jobs/explore/cancelled_at_once.out
spare "$meshrun" explore "$room/no file" --mesh 1:0 --cancel 0
refuse_each "meshrun explore" \
    replay_fault "$meshrun" explore jobs/explore/cancelled_at_once.job --mesh 1:0 --cancel 0
outcomes=$wanted
counted="$(grep -c '^outcome ' "$outcomes") outcomes"
echo "as expected: $counted" >"$room/verdict"
echo "never 1: 0 of $counted; no outcome has answer 1 of worker 1" >>"$room/verdict"
wanted=$room/verdict
set -- --mesh 1:0 --cancel 0 --expect "$outcomes" --never 'worker 1: byte 00'
spare "$meshrun" explore "$room/no file" "$@"
refuse_each "meshrun explore --expect" replay_fault "$meshrun" explore jobs/explore/cancelled_at_once.job "$@"
set -- --mesh 1:0 --steps 'protect copy:once remap+unprotect release' --any 0
"$meshrun" explore jobs/otherwise/setting_one.job "$@" >"$room/right.report"
wanted=$room/right.report
spare "$meshrun" explore "$room/no file" "$@"
refuse_each "meshrun explore --steps" replay_fault "$meshrun" explore jobs/otherwise/setting_one.job "$@"
set -- --mesh 1:0 --steps 'protect remap:once'
"$meshrun" explore jobs/otherwise/load.job "$@" >"$room/wrong.report"
wanted=$room/wrong.report
spare "$meshrun" explore "$room/no file" "$@"
refuse_each "meshrun explore --steps, a wrong list" verdict_fault "$meshrun" explore jobs/otherwise/load.job "$@"
numbers="--probe 8 --rounds 3 --workers 2 --seed 1 --meshers 2"
spare "$meshrun" threads "$room/no file" $numbers
refuse_each "meshrun threads" threads_fault "$meshrun" threads jobs/examples/threads.job $numbers

echo "$passed passed, $failed failed"
[ "$failed" -eq 0 ]
