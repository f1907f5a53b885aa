#!/bin/sh
# Builds the plain engine, and rewrites the golden files of `meshrun replay --echo`.
#
#     tools/gen/echo_golden.sh
#
# For each NAME.echo in jobs, it runs tools/engines/replay on NAME.job with `--echo`, and writes the standard output to
# NAME.echo. To add a golden file, create an empty NAME.echo beside a job and run the script. The engine is plain Rust
# and shares no code with the program.
#
# A line is printed only for a run that fails: the job and its standard error. The status is 1 if a run fails or there is
# no NAME.echo, and 2 if the engine can't be built. It needs cargo.

. "$(dirname "$0")/../program.sh"
cd "$(dirname "$0")/../.." || exit 2
make_room
build_plain

failed=0
written=0
for golden in jobs/*/*.echo jobs/*/*/*.echo; do
    [ -f "$golden" ] || continue
    written=$((written + 1))
    if ! "$plain" replay --echo "${golden%.echo}.job" >"$golden" 2>"$room/errors"; then
        echo "${golden%.echo}.job: $(cat "$room/errors")" >&2
        failed=1
    fi
done
if [ $written -eq 0 ]; then
    echo "no NAME.echo in jobs" >&2
    failed=1
fi
exit $failed
