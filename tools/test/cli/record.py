"""Programs recorded by examples/record_malloc.c: they do what they do without it, and their histories are legal."""

import os
import random
import re
import shutil
import signal
import subprocess
import time

from cli.check import compiled, entries_in, legal
from cli.suite import ANYTHING, NOTHING, SOME_TEXT, Beginning, Run, execute, line

KILLED = "import os; kept = [bytes(1000) for i in range(1000)]; os.kill(os.getpid(), 9)"
THINNED = '$n{$_} = "x" x $_ for 1 .. 1000; print join(" ", sort keys %n), "\\n"'
FORKS = """
import os, threading
def work(n):
    for i in range(200):
        kept = [bytes(k) for k in range(500, 500 + n)]
threads = [threading.Thread(target=work, args=[20]) for i in range(4)]
for thread in threads: thread.start()
for child in range(5):
    pid = os.fork()
    if pid == 0:
        work(30)
        os._exit(0)
    os.waitpid(pid, 0)
for thread in threads: thread.join()
"""
OVERLAPS = re.compile(rb"line \d+: overlaps object \d+, made at line \d+\n")
KILLS = 3  # programs that are killed
RUNS = 20  # of the allocator with a race, until its race is seen


def cases(suite):
    flags = "gcc", "-std=c99", "-fPIC", "-shared"
    compiled(suite, "a recorder of any program", [*flags, "examples/record_malloc.c"], suite.room / "record_malloc.so")
    compiled(suite, "an allocator with a race", [*flags, "-fno-builtin", "examples/racy.c"], suite.room / "racy.so")
    compiled(suite, "the recorder's tool", ["gcc", "-std=c99", "-DMERGE", "examples/record_malloc.c"], merger(suite))
    words = "gcc", "-std=c99", "-fno-builtin", "-pthread", "tools/test/recorded.c"
    ours = compiled(suite, "a program to be recorded", words, suite.room / "recorded")

    programs(suite)
    threads(suite, ours)
    signals(suite, ours)
    descriptor(suite, ours)
    forks(suite, "recorded", [ours, "forks"], 20)
    pipe(suite, ours)
    for _ in range(KILLS):
        killed(suite, ours)
    limited(suite, ours)
    second_run(suite, ours)
    messages(suite, ours)
    racy(suite, ours)


def programs(suite):
    """Programs of this machine, at least two of three."""
    found = 0
    if is_here("python3"):
        found += 1
        record(suite, "python3", 0, "python3", ["python3", "-c", "print(sorted(map(str, range(1000)))[7])"])
        record(suite, "python3_killed", 137, "python3", ["python3", "-c", KILLED])
        stamped(suite, "python3", "python3", ["python3", "-c", FORKS.replace("range(5)", "range(0)")])
        forks(suite, "python3", ["python3", "-c", FORKS], 5)
    if is_here("perl"):
        found += 1
        record(suite, "perl", 0, "perl", ["perl", "-e", THINNED])
    compiler = subprocess.run(["gcc", "-print-prog-name=cc1"], capture_output=True, text=True).stdout.strip()
    if is_here(compiler):
        found += 1
        words = "gcc", "-std=c99", "-O1", "-c", "-o", suite.room / "slots.o", "examples/recorded_slots.c"
        record(suite, "cc1", 0, "cc1", words)
    if is_here("xz"):
        words = "xz", "-T2", "-1", "--block-size=20000", "-c", "docs/DECISIONS.md"
        record(suite, "xz", 0, "xz", words)
        stamped(suite, "xz", "xz", words)
    suite.report("record: two programs or more", [] if found >= 2 else [f"{found}"])


def is_here(program):
    """Whether this machine has a program. Prints a line if it doesn't."""
    if shutil.which(program):
        return True
    print(f"skipped: there is no {program} on this machine")
    return False


def merger(suite):
    return suite.room / "record_merge"


def variables(suite, history, **more):
    """The variables with which a program is recorded."""
    return {"LD_PRELOAD": f"{suite.room}/record_malloc.so", "RECORD": str(history)} | more


def record(suite, name, status, program, command):
    """A command ends with this status, and prints what it prints when it isn't recorded.

    The history of the process that runs `program` is legal, and has a hundred entries at least.
    """
    history = suite.room / f"{name}.history"
    plain = execute(command)
    recorded = execute(command, variables=variables(suite, history, RECORD_ONLY=program))
    suite.compare(f"record: {name}", recorded, status, plain.output, ANYTHING)
    if status:
        suite.compare(f"record: the end of {name}", execute([merger(suite), "-join", history]))
    judge(suite, name, history)


def judge(suite, name, history):
    """The file of a history has a hundred entries at least, is legal, and has no tail any more."""
    faults = [] if history.exists() and entries_in(history) >= 100 else ["fewer than a hundred"]
    faults += ["a tail is left"] if history.with_name(f"{history.name}.tail").exists() else []
    history.touch()
    suite.report(f"record: the entries of {name}", faults)
    suite.check(f"check: the history of {name}", 0, legal(history), NOTHING, "check", history)


def stamped(suite, name, program, command):
    """The stamps of a command, by each clock, as a history of either version."""
    for clock in "counter", "tsc":
        stamps = suite.room / f"{name}.{clock}.stamps"
        plain = execute(command)
        more = {"RECORD_ONLY": program, "RECORD_STAMPS": "1", "RECORD_CLOCK": clock}
        recorded = execute(command, variables=variables(suite, stamps, **more))
        suite.compare(f"record: the stamps of {name} by {clock}", recorded, 0, plain.output, ANYTHING)
        merged(suite, f"{name} by {clock}", stamps)


def merged(suite, name, stamps):
    """Both histories of a file of stamps."""
    overlapping, ordered = (stamps.with_suffix(suffix) for suffix in (".history", ".ordered"))
    overlapping.write_bytes(execute([merger(suite), stamps]).output)
    ordered.write_bytes(execute([merger(suite), "-1", stamps]).output)
    suite.report(f"record: the calls of {name}", [] if entries_in(overlapping) >= 100 else ["fewer than a hundred"])
    wanted = line(f"linearizable {entries_in(overlapping)} entries")
    suite.check(f"check: the stamps of {name}", 0, wanted, NOTHING, "check", overlapping)
    suite.check(f"check: the stamps of {name}, in order", 0, legal(ordered), NOTHING, "check", ordered)


def threads(suite, ours):
    """Threads that hand objects on to one another."""
    record(suite, "threads", 0, "recorded", [ours, "threads"])
    stamped(suite, "threads", "recorded", [ours, "threads"])


def signals(suite, ours):
    """A signal handler that allocates while the recorder has its lock, or waits for it."""
    record(suite, "signals", 0, "recorded", [ours, "signals"])
    stamped(suite, "signals", "recorded", [ours, "signals"])


def descriptor(suite, ours):
    """A program that uses a high descriptor: the recorder has none."""
    place = suite.room / "descriptor"
    place.mkdir()
    recorded = execute(["env", "-C", place, ours, "descriptor"], variables=variables(suite, place / "h.history"))
    suite.compare("record: a program that uses descriptor 1000", recorded, 0, NOTHING, ANYTHING)
    written = Run(0, (place / "user.txt").read_bytes(), NOTHING)
    suite.compare("record: its file", written, 0, line("mine"))
    judge(suite, "descriptor 1000", place / "h.history")


def forks(suite, name, command, children):
    """A program with threads and children of fork: each has a file, and each history is legal."""
    place = suite.room / f"{name}_forks"
    place.mkdir()
    only = name if name == "recorded" else "python3"
    recorded = execute(command, variables=variables(suite, place / "h", RECORD_ONLY=only))
    suite.compare(f"record: {name} with forks", recorded, 0, NOTHING, ANYTHING)
    files = sorted(place.iterdir())
    wrong = [file.name for file in files if suite.run("check", file).output != legal(file)]
    wrong += [] if len(files) == children + 1 else [f"{len(files)} files"]
    suite.report(f"check: the histories of {name} and its children", wrong)


def pipe(suite, ours):
    """A history that goes to a pipe has as many lines as one that goes to a file. Its reader may end early."""
    place, history = suite.room / "pipe", suite.room / "pipe.history"
    os.mkfifo(place)
    with open(history, "wb") as file, subprocess.Popen(["cat", place], stdout=file):
        recorded = execute([ours, "threads"], variables=variables(suite, place))
    suite.compare("record: a pipe", recorded)
    judge(suite, "a pipe", history)
    wanted, found = entries_in(suite.room / "threads.history"), entries_in(history)
    suite.report("record: all lines are in the pipe", [] if found == wanted else [f"{found} lines, not {wanted}"])

    with subprocess.Popen(["head", "-n", "1", place], stdout=subprocess.DEVNULL):
        recorded = execute([ours, "threads"], variables=variables(suite, place))
    suite.compare("record: a pipe whose reader ends", recorded, 0, NOTHING, SOME_TEXT)


def killed(suite, ours):
    """A program with threads is killed at a moment. Its file is completed, and is legal."""
    history, stamps = suite.room / "killed.history", suite.room / "killed_with_stamps.stamps"
    for file in (history, stamps):
        file.unlink(missing_ok=True)
        more = {"RECORD_STAMPS": "1"} if file == stamps else {}
        process = subprocess.Popen([ours, "forever"], env=os.environ | variables(suite, file, **more))
        for _ in range(500):
            time.sleep(0.01 + random.random() / 100)
            if file.exists() and file.stat().st_size > 400_000:  # more than a block of each thread
                break
        process.kill()
        status = process.wait()
        suite.report(f"record: {file.stem} by a signal", [] if status == -signal.SIGKILL else [f"status {status}"])
    suite.compare("record: a history is completed", execute([merger(suite), "-join", history]))
    judge(suite, "a program that was killed", history)
    merged(suite, "a program that was killed", stamps)


def limited(suite, ours):
    """A program begins its file again after exec. Where a file may not be longer, the recording ends, and not the
    program: the file ends in a whole line, and can be completed."""
    place = suite.room / "limited"
    place.mkdir()
    history = place / "h"
    words = "sh", "-c", 'ulimit -f 2000; exec "$0" threads', ours
    recorded = execute(words, variables=variables(suite, history))
    said = Beginning(f"record_malloc: {history}: the limit of a file's size".encode())
    suite.compare("record: a file that is too long", recorded, 0, NOTHING, said)
    files = sorted(file.name for file in place.iterdir())
    suite.report("record: one file after exec", [] if files == ["h", "h.tail"] else files)
    suite.check("check: a history that is too long", 0, legal(history), NOTHING, "check", history)
    suite.compare("record: it is completed", execute([merger(suite), "-join", history]))
    judge(suite, "a limited program", history)


def second_run(suite, ours):
    """A file of an earlier run is left alone: the next run has a file of its own, and says which."""
    place = suite.room / "second"
    place.mkdir()
    earlier = suite.write("second/h", b"earlier\n")
    recorded = execute([ours, "threads"], variables=variables(suite, earlier))
    name = re.fullmatch(rb"record_malloc: \S+ exists: the history of recorded is (\S+)\n", recorded.errors)
    faults = [] if name else [repr(recorded.errors)]
    faults += [] if earlier.read_bytes() == b"earlier\n" else ["the earlier file is changed"]
    suite.report("record: an earlier file", faults)
    if name:
        judge(suite, "a second run", earlier.with_name(os.path.basename(name[1].decode())))


def messages(suite, ours):
    """Where nothing is recorded there is a line on standard error, unless RECORD_QUIET is set."""
    nowhere = suite.room / "nowhere/h"
    for name, more in ("no RECORD", {}), ("a file that can't be created", {"RECORD": str(nowhere)}):
        set_variables = {"LD_PRELOAD": f"{suite.room}/record_malloc.so"} | more
        recorded = execute([ours, "threads"], variables=set_variables)
        suite.compare(f"record: {name}", recorded, 0, NOTHING, SOME_TEXT)
        suite.report(f"record: {name}: one line", [] if recorded.errors.count(b"\n") == 1 else [repr(recorded.errors)])
        quiet = execute([ours, "threads"], variables=set_variables | {"RECORD_QUIET": "1"})
        suite.compare(f"record: {name}, quiet", quiet)


def racy(suite, ours):
    """An allocator with a race: the lock of the recorder hides it, and stamps show it in some run."""
    preloaded = {"LD_PRELOAD": f"{suite.room}/record_malloc.so {suite.room}/racy.so"}
    history, stamps = suite.room / "racy.history", suite.room / "racy.stamps"
    recorded = execute([ours, "threads"], variables={"RECORD": str(history)} | preloaded)
    suite.compare("record: a race under the lock", recorded, 0, NOTHING, NOTHING)
    judge(suite, "a race under the lock", history)

    if len(os.sched_getaffinity(0)) < 2:
        print("skipped: a race by stamps needs two processors")
        return
    for run in range(1, RUNS + 1):
        stamps.unlink(missing_ok=True)
        recorded = execute([ours, "threads"], variables={"RECORD": str(stamps), "RECORD_STAMPS": "1"} | preloaded)
        history.write_bytes(execute([merger(suite), stamps]).output)
        verdict = suite.run("check", history)
        if OVERLAPS.fullmatch(verdict.output):
            break
    print(f"the race was seen in run {run} of at most {RUNS}")
    found = OVERLAPS.fullmatch(verdict.output) and verdict.status == 3
    suite.report("check: a race by stamps", [] if found else [f"not seen in {RUNS} runs: {verdict.output}"])
