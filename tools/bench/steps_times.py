"""Runs reports on lists of steps by the program and by the plain engine, for tools/bench/steps.sh.

    steps_times.py PROGRAM ROOM

ROOM is the folder of the plain engine, `reference`. The output and the status are those of steps.sh.
"""
import sys

from timed import measured

program, room = sys.argv[1:]
reference = f"{room}/reference"
MOST = ["--states", "10000000"]
RIGHT = "protect copy remap unprotect release"
ONE_MESH, TWO_MESHES = ["--mesh", "1:0"], ["--mesh", "1:0", "--mesh", "2:0"]
FENCED = "protect fence copy remap unprotect fence release"
# The setting, the list, the number of commands, the meshes, and how commands are made.
RUNS = [
    ("one", RIGHT, 7, ONE_MESH, []),
    ("one", "copy protect remap unprotect release", 7, ONE_MESH, []),
    ("two_spans", RIGHT, 4, ONE_MESH, []),
    ("three_pages", RIGHT, 3, ONE_MESH, []),
    ("two_meshes", RIGHT, 3, TWO_MESHES, []),
    ("one", FENCED, 4, ONE_MESH, ["--store", "stale", "--load", "stale"]),
]


def main():
    """Prints a line for each run. Returns whether the two always print the same."""
    smallest = ["jobs/otherwise/nothing.job", "--mesh", "0:0", "--steps", "copy", "--any", "0"]
    least = measured(room, [program, "explore", *smallest])[2]
    alike = True
    print(f"{'setting, commands and list':62} {'states':>8} {'seconds':>8} {'states/s':>9} {'bytes/state':>11} {'ratio':>6}")
    for setting, steps, commands, meshes, timing in RUNS:
        words = [f"jobs/otherwise/setting_{setting}.job", *meshes, "--steps", steps, "--any", commands, *timing, *MOST]
        name = f"{setting} {commands} {'right' if steps == RIGHT else steps}{', stale' if timing else ''}"
        ours, seconds, peak = measured(room, [program, "explore", *words])
        theirs, plain, _ = measured(room, [reference, *words])
        if not ours or ours != theirs:
            print(f"{name:62} differs")
            alike = False
            continue
        states = next(int(row.split()[1]) for row in ours.splitlines() if row.startswith(b"states "))
        bytes_each = max(peak - least, 0) * 1024 * 1024 / states
        speed, ratio = states / max(seconds, 0.01), seconds / max(plain, 0.01)
        print(f"{name:62} {states:8} {seconds:8.2f} {speed:9.0f} {bytes_each:11.0f} {ratio:6.1f}")
    return alike


sys.exit(0 if main() else 1)
