"""Histories that allocators in C record, and those of calls that overlap, judged by another engine too."""

import pathlib
import platform
import re
import socket
import sys

from cli.suite import NOTHING, SOME_TEXT, Beginning, Explained, Run, execute, line

sys.path.append(str(pathlib.Path(__file__).resolve().parents[2] / "engines/linearize"))
import witnesses

PENDING = rb"calls that were pending: [1-9]\d*\n"
COPIES = re.compile(rb" (?:put \d+ \d+|bytes) [0-9a-f]{8192}\b")
OVERLAPPING = pathlib.Path("histories/overlapping")
LOST_STORE = (
    "line 306: answer differs: bytes 00000000000000000000000000000000, "
    "wanted bytes a287dc00000000000000000000000000; byte 132 was last stored at line 285"
)


def cases(suite):
    allocator(suite)
    for history in sorted(OVERLAPPING.glob("*.history")):
        overlapping(suite, history)
    racing_threads(suite)
    recorded_threads(suite)
    for version in (1, 2):
        long_lines(suite, version)
        failing_read(suite, version)


def legal(history):
    """The verdict on a legal history: all its lines but the head are entries."""
    return line(f"legal {entries_in(history)} entries")


def entries_in(history):
    return history.read_bytes().count(b"\n") - 1


def compiled(suite, name, words, result):
    """A case: whether the compiler makes this file, without a warning."""
    suite.compare(name, execute([*words, "-O2", "-Wall", "-Wextra", "-Werror", "-o", result]))
    return result


def allocator(suite):
    """The history of examples/recorded_slots.c, without its fault and with it."""
    words = "gcc", "-std=c99", "examples/recorded_slots.c"
    slots = compiled(suite, "an allocator in C that records", words, suite.room / "slots")
    history = suite.write("slots.history", execute([slots, 3]).output)
    suite.check("check: its history", 0, line("legal 18089 entries"), NOTHING, "check", history)
    history = suite.write("bug.history", execute([slots, 3, "--bug"]).output)
    name = "check: its history with a bug"
    suite.check(name, 3, line(LOST_STORE), NOTHING, "check", history)
    suite.check(f"{name}, on standard input", 3, line(LOST_STORE), NOTHING, "check", "-", stdin=history)


def overlapping(suite, history):
    """A history of calls that overlap: its verdict or its fault, and what `--order` prints."""
    name = f"check: calls that overlap, {history.stem}"
    ordered = f"check --order: {history.stem}"
    verdict, fault, options = (history.with_suffix(suffix) for suffix in (".out", ".err", ".options"))
    words = options.read_text().split() if options.exists() else []
    if fault.exists():
        explained = Explained(fault.read_bytes())
        suite.check(name, 2, NOTHING, explained, "check", history, *words)
        suite.check(ordered, 2, NOTHING, explained, "check", history, "--order", *words)
    elif verdict.read_text().startswith("linearizable"):
        suite.check(name, 0, verdict, NOTHING, "check", history, *words)
        order(suite, ordered, history)
    else:
        status = 4 if verdict.read_text().startswith("undecided") else 3
        suite.check(name, status, verdict, NOTHING, "check", history, *words)
        suite.check(ordered, status, verdict, NOTHING, "check", history, "--order", *words)
        if status == 3:
            witness(suite, history, verdict)


def witness(suite, history, verdict):
    """What `--witness` prints of a history without an order: the smallest witness, if another engine found it, or else
    some witness; and the verdict, if no answer is wrong."""
    name, smallest = f"check --witness: {history.stem}", history.with_suffix(".witness")
    if smallest.exists():
        suite.check(name, 3, smallest, NOTHING, "check", history, "--witness")
        judged = suite.run("check", smallest)
        suite.report(f"{name}, judged", [] if judged.status == 3 else [f"status {judged.status}"])
    elif witnesses.wrong_call(history.read_text()) is None:
        suite.check(name, 3, verdict, NOTHING, "check", history, "--witness")
    else:
        printed = suite.run("check", history, "--witness").output.decode()
        fault = witnesses.fault_of(history.read_text(), printed)
        suite.report(name, [fault] if fault else [])


def order(suite, name, history):
    """An order of calls that overlap: it has the calls, each once, respects their times, and is a legal history."""
    printed = suite.run("check", history, "--order")
    ordered = suite.write("ordered.history", printed.output)
    judged = execute([sys.executable, "tools/engines/linearize/is_order.py", history, ordered])
    both = Run(printed.status or judged.status, judged.output, printed.errors + judged.errors)
    suite.compare(name, both)
    wanted = line(f"legal {entries_in(history)} entries")
    suite.check(f"{name}, are legal in that order", 0, wanted, NOTHING, "check", ordered)


def racing_threads(suite):
    """The histories of examples/racing_slots.c, without its fault and with it."""
    words = "gcc", "-std=gnu11", "-pthread", "examples/racing_slots.c"
    racing = compiled(suite, "threads in C that race", words, suite.room / "racing")
    for threads in (2, 4):
        history = suite.write("racing.history", execute([racing, "--threads", threads]).output)
        name = f"check: the history of {threads} threads that race"
        wanted = line(f"linearizable {entries_in(history)} entries")
        suite.check(name, 0, wanted, NOTHING, "check", history)
        order(suite, f"check --order: the calls of {threads} threads that race", history)
        suite.check(f"{name}, with a bug", 3, SOME_TEXT, NOTHING, "check", faulty(suite, racing, threads))


def faulty(suite, racing, threads):
    """A history of threads that race, with the fault. It shows only if threads meet, so there are up to 20 runs."""
    for _ in range(20):
        history = suite.write("racing.history", execute([racing, "--threads", threads, "--bug"]).output)
        if suite.run("check", history).status:
            break
    return history


def recorded_threads(suite):
    """The histories of examples/racing_real.c, recorded by mesh_record.h: without a bug, with three, and of a crash."""
    words = "gcc", "-std=gnu11", "-Wpedantic", "-pthread", "examples/racing_real.c"
    real = compiled(suite, "threads in C that race on malloc", words, suite.room / "real")
    right_threads(suite, "2 threads on malloc", real, "--threads", 2)
    right_threads(suite, "4 threads on malloc", real, "--threads", 4)
    right_threads(suite, "4 threads on a pool", real, "--threads", 4, "--pool")
    right_threads(suite, "4 threads that copy", real, "--threads", 4, "--copies")
    copied = len(COPIES.findall((suite.room / "real.history").read_bytes()))
    suite.report("record: copies of 4,096 bytes in a line each", [] if copied > 10 else [f"{copied}"])
    if platform.machine() == "x86_64":
        words = *words, "-DMESH_RECORD_TSC"
        timed = compiled(suite, "threads in C that race, with time stamps", words, suite.room / "timed")
        right_threads(suite, "4 threads with time stamps", timed, "--threads", 4)
    for bug in ("double", "uncleared", "lost-store"):
        wrong_threads(suite, real, bug)
    words = "gcc", "-std=gnu11", "-Wpedantic", "examples/merge_record.c"
    merge = compiled(suite, "a program that merges the records of threads", words, suite.room / "merge")
    crashed_threads(suite, real, merge, "within a store", b"[0-9a-f]{16}")
    crashed_threads(suite, real, merge, "within a copy", b"[0-9a-f]{8192}", "--copies")


def right_threads(suite, name, real, *words):
    """Threads without a bug: each history is linearizable. Calls overlap in at least one of up to 20 runs."""
    for seed in range(1, 21):
        run, history = recorded(suite, real, "--seed", seed, *words)
        overlaps = re.fullmatch(rb"\d+ calls, (\d+) pairs on one object overlapped\n", run.errors)
        wanted = line(f"linearizable {entries_in(history)} entries")
        suite.check(f"check: the recorded history of {name}", 0, wanted, NOTHING, "check", history)
        if run.status or not overlaps or int(overlaps[1]):
            break
    faults = [] if run.status == 0 and overlaps and int(overlaps[1]) else [f"status {run.status}, {run.errors}"]
    suite.report(f"record: the calls of {name} overlap", faults)


def wrong_threads(suite, real, bug):
    """Threads with a bug, which strikes and is found in at least one of up to 20 runs."""
    for seed in range(1, 21):
        run, history = recorded(suite, real, "--seed", seed, "--bug", bug)
        if run.status == 0 and suite.run("check", history).status:
            break
    struck = re.search(rb", %s struck [1-9]\d* times\n$" % bug.encode(), run.errors)
    suite.report(f"record: {bug} strikes", [] if struck and run.status == 0 else [f"status {run.status}, {run.errors}"])
    suite.check(f"check: a recorded history with {bug}", 3, Beginning(b"line "), NOTHING, "check", history)


def recorded(suite, real, *words):
    """A run of threads that race, and its history."""
    run = execute([real, "--calls", 1500, "--record", suite.room / "real.record", *words])
    return run, suite.write("real.history", run.output)


def crashed_threads(suite, real, merge, where, stored, *words):
    """Threads of which one aborts within a store: the calls up to the abort, among them the store with these bytes."""
    (suite.room / "real.record").unlink(missing_ok=True)
    run, history = recorded(suite, real, "--crash-after", 500, *words)
    suite.compare(f"record: threads that crash {where}", run, 134, NOTHING, NOTHING)
    merged = execute([merge, suite.room / "real.record"])
    history.write_bytes(merged.output)
    pending = re.fullmatch(PENDING, merged.errors)
    stores = re.findall(rb"^0 \d+ - put \d+ \d+ %s$" % stored, merged.output, re.MULTILINE)
    is_whole = merged.status == 0 and pending and len(stores) == 1 and entries_in(history) > 500
    name = f"record: the calls before a crash {where}"
    suite.report(name, [] if is_whole else [f"status {merged.status}, {merged.errors}"])
    wanted = line(f"linearizable {entries_in(history)} entries")
    suite.check(f"check: the recorded history of a crash {where}", 0, wanted, NOTHING, "check", history)

    # The kind of the first call, and how many bytes it has: the first 64 bytes are the file's head.
    for what, place in ("call", 64 + 28), ("number of bytes", 64 + 31):
        record = bytearray((suite.room / "real.record").read_bytes())
        record[place] = 0xFF
        merged = execute([merge, suite.write("overwritten.record", record)])
        name = f"record: a {what} that was overwritten, after a crash {where}"
        suite.compare(name, merged, 1, Beginning(b"history 2\n"), SOME_TEXT)


def long_lines(suite, version):
    """Lines as long as they may be, and longer."""
    for name, text, fault in (
        ("a line of 1,025 bytes", "0" * 1025 + "\n", "WORD"),
        ("a line of 16,384 bytes", "0" * 16384 + "\n", "WORD"),
        ("a line of 16,384 bytes that is cut off", "0" * 16384, "CUT"),
        ("a line of 16,385 bytes", "0" * 16385 + "\n", "LONG_LINE"),
        ("a line of 16,385 tabs", "\t" * 16385 + "\n", "LONG_LINE"),
        ("a long line that is cut off", "0" * 16385, "LONG_LINE"),
    ):
        history = suite.write("long.history", f"history {version}\n{text}".encode())
        name = f"check: {name}, version {version}"
        suite.check(name, 2, NOTHING, Explained(line(f"line 2: {fault}")), "check", history)


def failing_read(suite, version):
    """A connection that is reset when its lines have been read: it is closed before its own input was."""
    ours, theirs = socket.socketpair()
    ours.sendall(line(f"history {version}"))
    theirs.sendall(b"unread")
    ours.close()
    with theirs:
        name = f"check: a read that fails, version {version}"
        suite.check(name, 1, NOTHING, line("read fault"), "check", "-", stdin=theirs)
