#!/bin/sh
# Builds the plain engine, and rewrites the golden files of `meshrun draw --text`.
#
#     tools/gen/frames_golden.sh
#
# For each NAME.frames in jobs, it runs tools/engines/replay on NAME.job with `draw --text`, and writes the standard
# output to NAME.frames. To add a golden file, create an empty NAME.frames beside a job and run the script. The engine
# is plain Rust and shares no code with the program.
#
# A line is printed only for a run that fails: the job and its standard error. The status is 1 if a run fails or there
# is no NAME.frames, and 2 if the engine can't be built. It needs cargo.

. "$(dirname "$0")/../program.sh"
cd "$(dirname "$0")/../.." || exit 2
make_room
build_plain

failed=0
written=0
for golden in jobs/*/*.frames jobs/*/*/*.frames; do
    [ -f "$golden" ] || continue
    written=$((written + 1))
    if ! "$plain" draw --text "${golden%.frames}.job" >"$golden" 2>"$room/errors"; then
        echo "${golden%.frames}.job: $(cat "$room/errors")" >&2
        failed=1
    fi
done
if [ $written -eq 0 ]; then
    echo "no NAME.frames in jobs" >&2
    failed=1
fi
exit $failed
