#!/usr/bin/env python3
"""Prints the median times of job files by `replay` and by `threads`, for tools/bench/lock.sh.

    tools/bench/lock_times.py PROGRAM RUNS ENGINE FILE..

The output and the status are those of lock.sh.
"""
import os
import pathlib
import sys

from timed import by_turns, have_equal_outputs

PROBE, SEED = "2", "1"


def threads_of(program, engine, file, rounds):
    """The two commands that run a file on threads, with `rounds` rounds of meshing."""
    numbers = ["--rounds", rounds, "--probe", PROBE, "--seed", SEED, "--workers", "1"]
    return [[program, "threads", file, *numbers], [engine, "threads", file, rounds, PROBE, SEED]]


WAYS = {
    "replay": lambda program, engine, file: [[program, "replay", file], [engine, "replay", file]],
    "threads": lambda program, engine, file: threads_of(program, engine, file, "0"),
    "with rounds": lambda program, engine, file: threads_of(program, engine, file, "20"),
}


def commands_of(file):
    """The number of a job file's commands, which is that of its plan's lines."""
    with open(file, encoding="ascii") as lines:
        return sum(line.startswith("run ") for line in lines)


def text(used, replayed, commands):
    """The figures of a run. `replayed` has those of the replay if the run's way is `threads`."""
    more = f"{(used[1] - replayed[1]) / commands * 1e9:15.0f}" if replayed else " " * 15
    return f"{used[0] * 1e3:14.2f}{used[1] * 1e3:10.2f}{more}"


def main():
    """Prints a line for each file and way. Returns whether the two always print the same answers."""
    program, runs, engine, files = os.path.abspath(sys.argv[1]), int(sys.argv[2]), sys.argv[3], sys.argv[4:]
    columns = f"{'processor ms':>14}{'wall ms':>10}{'more each, ns':>15}"
    print(f"{'file':12}{'way':>12}{columns}   plain:{columns[2:]}{'ratio':>7}")
    for file in files:
        name = pathlib.Path(file).stem
        replayed = None
        for way, commands_by in WAYS.items():
            commands = commands_by(program, engine, file)
            if not have_equal_outputs(commands):
                print(f"{name:12}{way:>12} differs")
                return False
            used = by_turns(commands, runs)
            if way == "replay":
                replayed = used
            texts = [
                text(one, of_replay if way == "threads" else None, commands_of(file))
                for one, of_replay in zip(used, replayed)
            ]
            print(f"{name:12}{way:>12}{texts[0]}           {texts[1][2:]}{used[0][0] / used[1][0]:7.2f}")
    return True


if __name__ == "__main__":
    sys.exit(0 if main() else 1)
