# The functions of the tools that run the built program. A tool reads this file; it isn't run by itself.
#
#     . "$(dirname "$0")/../program.sh"

# find_program PROGRAM: sets `program` to the absolute path of PROGRAM, by default crates/meshrun/out/meshrun, and
# changes to the top of the repository. Ends the tool with status 2 if there is no such program.
find_program() {
    program=${1:-$(dirname "$0")/../../crates/meshrun/out/meshrun}
    case $program in
        /*) ;;
        *) program=$PWD/$program ;;
    esac
    cd "$(dirname "$0")/../.." || exit 2
    if [ ! -x "$program" ]; then
        echo "no program at $program: run \`rt ci\`, or \`rt run\` in crates/meshrun" >&2
        exit 2
    fi
}

# make_room: sets `room` to a new folder, which is removed when the tool ends.
make_room() {
    room=$(mktemp -d) || exit 2
    trap 'rm -rf "$room"' EXIT
}

# build_plain: builds tools/engines/replay, the plain engine of job files, in `room`, and sets `plain` to the program.
# Ends the tool with status 2 if the engine can't be built. It needs cargo.
build_plain() {
    plain=$room/engine/release/plain
    cargo build --quiet --release --offline --manifest-path tools/engines/replay/Cargo.toml \
        --target-dir "$room/engine" || exit 2
}
