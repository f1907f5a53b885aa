#!/bin/sh
# Rewrites the golden files in histories/overlapping, by tools/engines/linearize/reference.py.
#
#     tools/gen/linearize_golden.sh
#
# Each NAME.history without a NAME.err is judged, with the options in NAME.options if there is such a file, and the
# output is written to NAME.out. NAME.err, the standard error for a history with a fault of its text, is written by hand
# and compared.
#
# A line is printed only for a run that fails: the history, the status and the output. The status is 1 if a run ends
# with a status other than 0, 3 or 4, or with a fault that isn't the one written by hand. It needs Python 3.
#
# The random histories were printed by random_histories.py with these arguments:
#
# - random_200_right: 7 --calls 200 --right
# - random_1000_right: 2 --calls 1000 --right
# - random_300_overlap: 187 --calls 300
# - random_500_other_bytes: 90 --calls 500
# - random_500_not_before_its_free: 136 --calls 500
# - random_60_long_right: 6 --calls 60 --long --right
# - random_60_long_other_byte: 20 --calls 60 --long

cd "$(dirname "$0")/../.." || exit 2
failed=0
for history in histories/overlapping/*.history; do
    golden=${history%.history}
    options=
    [ ! -f "$golden.options" ] || options=$(cat "$golden.options")
    # shellcheck disable=SC2086 # the words of the options
    output=$(python3 tools/engines/linearize/reference.py "$history" $options 2>&1)
    status=$?
    if [ -f "$golden.err" ]; then
        [ "$status" -eq 2 ] && [ "$output" = "$(cat "$golden.err")" ]
    else
        echo "$output" >"$golden.out"
        [ "$status" -eq 0 ] || [ "$status" -eq 3 ] || [ "$status" -eq 4 ]
    fi || {
        echo "$history: status $status, $output" >&2
        failed=1
    }
done
exit $failed
