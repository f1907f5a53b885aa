"""Replays job files by the program and by the plain engine, for tools/bench/replay.sh.

    replay_times.py PROGRAM RUNS ENGINE FILE..

The output and the status are those of replay.sh.
"""
import os
import pathlib
import sys

from timed import by_turns, have_equal_outputs


def text(used):
    """The medians of a command as text."""
    processor, wall, faults = used
    return f"{processor * 1e3:14.2f}{wall * 1e3:10.2f}{faults:13.0f}"


def main():
    """Prints a line for each file. Returns whether the two always print the same answers."""
    program, runs, engine, files = os.path.abspath(sys.argv[1]), int(sys.argv[2]), sys.argv[3], sys.argv[4:]
    columns = f"{'processor ms':>14}{'wall ms':>10}{'page faults':>13}"
    print(f"{'file':20}{'bytes':>9}{columns}   plain:{columns[2:]}{'ratio':>7}")
    for file in files:
        name = pathlib.Path(file).stem
        commands = [[program, "replay", file], [engine, "replay", file]]
        if not have_equal_outputs(commands):
            print(f"{name:20} differs")
            return False
        ours, plain = by_turns(commands, runs)
        size, ratio = os.path.getsize(file), ours[0] / plain[0]
        print(f"{name:20}{size:9}{text(ours)}         {text(plain)[2:]}{ratio:7.2f}")
    return True


if __name__ == "__main__":
    sys.exit(0 if main() else 1)
