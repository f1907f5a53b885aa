"""Follows recorded histories by the program and by the plain engine, for tools/bench/savings.sh.

    savings_times.py PROGRAM ROOM

ROOM is the folder of the histories and of the plain engine, `reference`. The output and the status are those of
savings.sh.
"""
import pathlib
import sys

from timed import measured

program, room = sys.argv[1], pathlib.Path(sys.argv[2])
RUNS = 7


def main():
    """Prints a line for each history. Returns whether the two always print the same table."""
    alike = True
    print(f"{'program':12} {'calls':>10} {'calls/s':>10} {'MB':>6} {'plain':>10} {'MB':>6} {'ratio':>6}")
    for history in sorted(room.glob("*.history")):
        runs = [
            (measured(room, [program, "savings", history]), measured(room, [room / "reference", history]))
            for _ in range(RUNS)
        ]
        ours, seconds, peak = min((run[0] for run in runs), key=lambda run: run[1])
        theirs, plain, plain_peak = min((run[1] for run in runs), key=lambda run: run[1])
        if ours != theirs or not ours:
            print(f"{history.stem:12} differs")
            alike = False
            continue
        calls = int(ours.split()[1])
        figures = f"{calls / seconds:10.0f} {peak:6.0f} {calls / plain:10.0f} {plain_peak:6.0f}"
        print(f"{history.stem:12} {calls:10} {figures} {seconds / plain:6.2f}")
    return alike


sys.exit(0 if main() else 1)
