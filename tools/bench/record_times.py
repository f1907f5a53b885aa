"""Records threads that race and judges their histories, for tools/bench/record.sh.

    record_times.py PROGRAM ROOM RUNS

ROOM is a folder with the compiled drivers. The output and the status are those of record.sh. Run it from the top of the
repository.
"""
import collections
import os
import re
import subprocess
import sys

from timed import measured

program, room, runs = sys.argv[1], sys.argv[2], int(sys.argv[3])
BUGS = "lost-store", "stale-load", "torn-store", "uncleared", "double", "use-after-free", "aba"
LIBRARIES = {"glibc": "", "jemalloc": "libjemalloc.so.2", "mimalloc": "libmimalloc.so.2"}
ENDED = re.compile(r"(\d+) calls, (\d+) pairs on one object overlapped(?:, \S+ struck (\d+) times)?\n")
KINDS = "linearizable", "line", "undecided"


def is_installed(library):
    """Whether the loader finds a library. If not, it prints an error and goes on without it."""
    tried = subprocess.run(["true"], env=os.environ | {"LD_PRELOAD": library}, capture_output=True, check=False)
    return not tried.stderr


def raced(clock, library, seed, words):
    """A run of the driver. Returns its history's path, its calls, its overlaps, and how often its bug struck."""
    history = f"{room}/real.history"
    command = [f"{room}/real_{clock}", "--calls", "5000", "--seed", str(seed), "--record", f"{room}/record", *words]
    with open(history, "wb") as file:
        ran = subprocess.run(command, stdout=file, stderr=subprocess.PIPE, text=True, check=False,
                             env=os.environ | {"LD_PRELOAD": library})
    ended = ENDED.fullmatch(ran.stderr)
    if not ended:
        sys.exit(f"{' '.join(command)} ended with status {ran.returncode}\n{ran.stderr}")
    return history, int(ended[1]), int(ended[2]), int(ended[3] or 0)


def row(name, bug, clock="COUNTER"):
    """Prints the line of an allocator and a bug. Returns whether all its histories are linearizable."""
    kinds, struck, fewest, calls, seconds = collections.Counter(), 0, None, 0, 0.0
    for seed in range(1, runs + 1):
        history, made, overlaps, strikes = raced(clock, LIBRARIES[name], seed, ["--bug", bug] if bug else [])
        verdict, took, _ = measured(room, [program, "check", history])
        kind = verdict.decode().split(" ")[0]
        kinds[kind] += 1
        struck += strikes > 0
        fewest = overlaps if fewest is None else min(fewest, overlaps)
        if kind == "linearizable":
            calls, seconds = calls + made, seconds + took
    counts = " ".join(f"{kinds[kind]:12}" for kind in KINDS)
    label = bug or ("none, TSC" if clock == "TSC" else "none")
    pace = f"{calls / seconds:9.0f}" if seconds else f"{'':9}"
    print(f"{name:9} {label:15} {struck if bug else '':>6} {counts} {fewest:9} {pace}".rstrip(), flush=True)
    return kinds["linearizable"] == runs


def main():
    """Prints both parts. Returns whether all histories without a bug are linearizable."""
    are_right = True
    kinds = " ".join(f"{kind:>12}" for kind in ("linearizable", "wrong call", "undecided"))
    print(f"{'allocator':9} {'bug':15} struck {kinds} {'overlaps':>9}   calls/s")
    for name, library in LIBRARIES.items():
        if library and not is_installed(library):
            continue
        are_right = row(name, None) and are_right
        are_right = row(name, None, "TSC") and are_right
        for bug in BUGS:
            row(name, bug)
    print(f"\n{'clock':9} {'threads':>7} {'ns a call':>10}")
    for clock in ("COUNTER", "TSC"):
        for threads in ("1", "2", "4"):
            command = [f"{room}/calls_{clock}", f"{room}/record", threads, "1000000"]
            times = [int(subprocess.run(command, capture_output=True, check=True).stdout) for _ in range(5)]
            print(f"{clock.lower():9} {threads:>7} {min(times):10}")
    return are_right


sys.exit(0 if main() else 1)
