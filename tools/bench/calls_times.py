"""Judges histories of overlapping calls by the program and by the plain engine, for tools/bench/calls.sh.

    calls_times.py PROGRAM ROOM CALLS

ROOM is a folder for the histories, with the compiled engine. The output and the status are those of calls.sh. Run it
from the top of the repository.
"""
import subprocess
import sys

from timed import measured

program, room, calls = sys.argv[1], sys.argv[2], int(sys.argv[3])
PLAIN = [f"{room}/reference", "--mode", "inside"]


def history(count, words):
    """Writes a history of about this many calls. Returns its path and its number of calls."""
    path = f"{room}/calls.history"
    with open(path, "wb") as file:
        words = [sys.executable, "tools/engines/linearize/long_history.py", str(count), *words]
        subprocess.run(words, stdout=file, check=True)
    with open(path, "rb") as file:
        return path, sum(1 for _ in file) - 1


def met(path):
    """The number of configurations that the plain engine meets."""
    ran = subprocess.run([*PLAIN, path, "--count"], capture_output=True, text=True, check=True)
    return int(ran.stderr.split()[1].rstrip(","))


def main():
    """Prints a line for each history. Returns whether all are linearizable."""
    histories = [
        ("4 threads, at most 64 objects", calls, ["4", "64"]),
        ("4 threads, one object", calls, ["4", "1"]),
        ("4 threads, all calls pending", calls // 10, ["4", "--pending"]),
        ("8 threads, all calls pending", calls // 10, ["8", "--pending"]),
        ("16 threads, the same 8 bytes", calls // 25, ["16", "--slot"]),
        ("24 threads, the same 8 bytes", calls // 25, ["24", "--slot"]),
    ]
    are_right = True
    print(f"{'history':30} {'calls':>8} {'calls/s':>8} {'MB':>4} {'plain':>9} {'MB':>4} {'ratio':>6} {'met':>9}")
    for name, count, words in histories:
        path, made = history(count, words)
        ours, seconds, peak = measured(room, [program, "check", path])
        theirs, plain, most = measured(room, [*PLAIN, path])
        are_right = are_right and ours.startswith(b"linearizable") and theirs == ours
        speeds = f"{made / seconds:8.0f} {peak:4.0f} {made / plain:9.0f} {most:4.0f} {seconds / plain:6.2f}"
        print(f"{name:30} {made:8} {speeds} {met(path):9}", flush=True)
    return are_right


sys.exit(0 if main() else 1)
