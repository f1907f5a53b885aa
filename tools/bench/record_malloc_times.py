"""Runs programs with and without the recorder, for tools/bench/record_malloc.sh.

    record_malloc_times.py ROOM RUNS

ROOM is a folder with the recorder and the program of threads. The output and the status are those of record_malloc.sh.
"""
import os
import pathlib
import shutil
import subprocess
import sys
import time

room, runs = pathlib.Path(sys.argv[1]), int(sys.argv[2])
SQL = """create table t(a integer primary key, b text);
with recursive n(i) as (select 1 union all select i + 1 from n where i < 60000)
insert into t select i, hex(i * 7919) from n; create index u on t(b); select count(*) from t where b like '3%';"""
PROGRAMS = {
    "jq": ["jq", "-n", "[range(60000) | tostring] | sort | length"],
    "perl": ["perl", "-e", 'for $n (1 .. 400000) { $h{$n % 50000} = "x" x ($n % 97) } print scalar keys %h'],
    "sqlite3": ["sqlite3", ":memory:", SQL],
    "ruby": ["ruby", "-e", 'h = {}; 300000.times { |n| h[n % 50000] = "x" * (n % 97) }; puts h.size'],
    "python3": [sys.executable, "-c", "k = {}\nfor n in range(400000): k[n * 7919 % 60000] = bytes(n * 31 % 900)"],
    "threads": [str(room / "threads"), "threads"],
}
MODES = {
    "lines": {},
    "stamps": {"RECORD_STAMPS": "1"},
    "tsc": {"RECORD_STAMPS": "1", "RECORD_CLOCK": "tsc"},
}


def times(command, variables):
    """The processor time and the wall time of a command. Ends this program if the command fails."""
    with open(room / "errors", "w+b") as errors:
        begin = time.perf_counter()
        child = subprocess.Popen(command, env=os.environ | variables, stdout=subprocess.DEVNULL, stderr=errors)
        _, status, used = os.wait4(child.pid, 0)
        wall = time.perf_counter() - begin
        child.returncode = status
        errors.seek(0)
        text = errors.read()
    if status or b"record_malloc" in text:
        sys.exit(f"{command[0]} ended with status {os.waitstatus_to_exitcode(status)}\n{text.decode()}")
    return used.ru_utime + used.ru_stime, wall


def recorded(name, mode):
    """The times of a program in a mode, and the calls that were recorded with lines."""
    file, command = room / f"{name}.{mode}", PROGRAMS[name]
    only = {"RECORD_ONLY": os.path.basename(command[0])}
    took = times(command, {"LD_PRELOAD": str(room / "record_malloc.so"), "RECORD": str(file)} | only | MODES[mode])
    calls = file.read_bytes().count(b"\n") - 1 if mode == "lines" else 0
    for made in room.glob(f"{name}.{mode}*"):
        made.unlink()
    return took, calls


def least(measured):
    """The least processor time and the least wall time."""
    return [min(column) for column in zip(*measured)]


def main():
    modes = " ".join(f"{mode:>7}" for mode in MODES)
    print(f"{'':9} {'':9} {'processor':>9} {'':23} {'wall':>9}")
    print(f"{'program':9} {'calls':>9} {'seconds':>9} {modes} {'seconds':>9} {modes}")
    for name, command in PROGRAMS.items():
        if not shutil.which(command[0]):
            continue
        plain, in_modes, calls = [], {mode: [] for mode in MODES}, 0
        for _ in range(runs):
            plain.append(times(command, {}))
            for mode, taken in in_modes.items():
                took, made = recorded(name, mode)
                taken.append(took)
                calls = max(calls, made)
        row = f"{name:9} {calls:9}"
        for kind, alone in enumerate(least(plain)):
            row += f" {alone:9.3f} " + " ".join(f"{least(taken)[kind] / alone:7.2f}" for taken in in_modes.values())
        print(row, flush=True)


main()
