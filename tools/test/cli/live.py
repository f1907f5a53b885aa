"""Golden files asked line by line, long lines, and other allocators that are sent the same commands."""

import pathlib
import re
import sys

from cli import golden
from cli.suite import NOTHING, SOME_TEXT, execute, lines

sys.path.append(str(pathlib.Path(__file__).resolve().parents[3] / "examples"))
import fuzz_live
import live_client

AGREED = r"(\d+) lines agreed: (\d+) blocked and (\d+) pages remapped by the one, (\d+) meshes by the other\n"
SHRUNK = r"(\d+) entries shrunk to (\d+) in (\d+) sessions: each of them matters\n"
MOST_LINES = 10  # of the plan of a shrunk job


def cases(suite):
    for job, expected in golden.jobs():
        text = job.read_text()
        if golden.is_fault(expected) or not text.startswith("mesh 2\n"):
            continue
        asked, answers = session_of(text, expected.read_text().splitlines())
        session = suite.write("session", lines(asked))
        name = f"live: {job.with_suffix('')}"
        suite.check(name, 0, lines(answers), NOTHING, "live", *sizes_of(text), stdin=session)

    long_lines(suite)
    another_allocator(suite)
    shrunk(suite)
    for name, allocator, kind, commands in FAULTY:
        faulty(suite, f"live: {name}", allocator, kind, commands)
    client_in_c(suite)


def another_allocator(suite):
    """A toy that meshes, the C library's `malloc`, and a toy with a bug whose lines are all printed."""
    fuzz = [sys.executable, "examples/fuzz_live.py", suite.program]
    agree(suite, "live: 5,000 lines beside another allocator", [*fuzz, "--lines", 5000], AGREED, (5000, 1, 1, 1))
    agree(suite, "live: 1,000 lines beside malloc", [*fuzz, "--lines", 1000, "--glibc"], AGREED, (1000, 0, 1, 0))
    found = execute([*fuzz, "--bug", "--no-shrink"])
    suite.compare("live: another allocator with a bug", found, 1, SOME_TEXT, SOME_TEXT)
    job = suite.write("found.job", found.output)
    suite.check("live: what was found, as a job", 0, SOME_TEXT, NOTHING, "replay", job)


def agree(suite, name, command, pattern, least):
    """A case: a client ends well, and what it counted is at least this."""
    run = execute(command)
    suite.compare(name, run, 0, SOME_TEXT)
    counts = counts_in(run.output, pattern)
    few = len(counts) != len(least) or any(count < wanted for count, wanted in zip(counts, least))
    suite.report(f"{name}: the counts", [f"{counts}, not {least} at least"] if few else [])


def counts_in(text, pattern):
    """The numbers at the beginning of a text, or none if it doesn't match."""
    matched = re.match(pattern, text.decode(errors="replace"))
    return tuple(map(int, matched.groups())) if matched else ()


def shrunk(suite):
    """The lines that show a bug are cut down to few, each of which matters."""
    run = execute([sys.executable, "examples/fuzz_live.py", suite.program, "--bug"])
    suite.compare("live: a bug is found and shrunk", run, 1, SOME_TEXT, SOME_TEXT)
    counts = counts_in(run.errors, SHRUNK)
    entries = run.errors.decode().splitlines()[1:-1]
    is_shrunk = len(counts) == 3 and counts[0] > 10 * counts[1] and counts[1] == len(entries) and counts[2] <= 400
    suite.report("live: the counts of what was shrunk", [] if is_shrunk else [f"{counts}, {len(entries)} entries"])

    job = suite.write("shrunk.job", run.output)
    answers = suite.check("live: what was shrunk, as a job", 0, SOME_TEXT, NOTHING, "replay", job).rows
    asked = [entry for entry in entries if not entry.startswith("own ")]
    is_short = 0 < len(answers) == len(asked) <= MOST_LINES
    suite.report("live: the lines of what was shrunk", [] if is_short else [f"{len(answers)} of {len(asked)}"])

    kind = kind_of_difference(suite, entries)
    suite.report("live: what was shrunk shows the bug", [] if kind == ("bytes", "bytes") else [f"{kind}"])
    needless = [entry for k, entry in enumerate(entries) if kind_of_difference(suite, entries[:k] + entries[k + 1 :]) == kind]
    suite.report("live: each entry of what was shrunk matters", needless)


def kind_of_difference(suite, entries):
    """The kind of the first answer of a toy with a bug that differs, or None."""
    with live_client.Comparison(live_client.Session(suite.program), fuzz_live.Toy(has_bug=True)) as comparison:
        _, difference = live_client.play(comparison, entries)
    return difference and difference.kind


class Moving(live_client.GlibcAllocator):
    def addr(self, cell):
        return super().addr(cell) + 1


class Raising(live_client.GlibcAllocator):
    def load(self, address, length):
        raise KeyError(address)


class Early(live_client.GlibcAllocator):
    def alias(self, to, source):
        super().alias(to, source)
        self.free(source)


# A name, an allocator with a fault, the kind of the difference, and the commands that are left.
FAULTY = (
    ("an address that changes", Moving, ("same", "other"), ["new", "addr"]),
    ("a call that raises an exception", Raising, ("bytes", "KeyError:"), ["new", "get"]),
    ("an alias that frees", Early, ("done", "refused 6 FREED"), ["new", "new", "alias", "copy"]),
)


def faulty(suite, name, allocator, kind, commands):
    """Random entries find the fault of an allocator, and are cut down to these commands."""

    def start():
        return live_client.Comparison(live_client.Session(suite.program), allocator())

    with start() as comparison:
        entries, difference = live_client.fuzz(comparison, seed=1, lines=1000)
    found = difference and live_client.shrink(entries, difference, start)
    left = [entry.split(" ")[2] for entry in found.entries] if found else []
    is_found = found and found.is_minimal and found.difference.kind == kind and left == commands
    suite.report(name, [] if is_found else [f"{difference}, {left}"])


def client_in_c(suite):
    """The client in C compiles without a warning, agrees, and finds a bug."""
    client = suite.room / "live_slots"
    flags = "-std=c99", "-D_POSIX_C_SOURCE=200809L", "-O2", "-Wall", "-Wextra", "-Werror"
    suite.compare("live: a client in C", execute(["gcc", *flags, "-o", client, "examples/live_slots.c"]))
    pattern = r"(\d+) lines agree: (\d+) blocked, (\d+) meshes\n"
    agree(suite, "live: slots in C", [client, suite.program], pattern, (900, 1, 1))
    found = execute([client, suite.program, "--bug"])
    suite.compare("live: slots in C with a bug", found, 1, NOTHING, SOME_TEXT)
    wanted = r"run \d (?:get|peek) [^:]*: bytes? 0+ of the proved heap, bytes? \w+ of the slots\n"
    is_found = re.fullmatch(wanted, found.errors.decode(errors="replace"))
    suite.report("live: what slots in C with a bug answer", [] if is_found else [found.errors.decode(errors="replace")])
    missing = execute([client, suite.room / "no_program"])
    suite.compare("live: a client in C of no program", missing, 1, NOTHING, SOME_TEXT)


def long_lines(suite):
    """Lines as long as they may be, and longer."""
    for length, end, fault in (
        (1024, "", "CUT"),
        (1024, "\n", "WORD"),
        (1025, "", "LONG_LINE"),
        (1025, "\n", "LONG_LINE"),
        (40000, "\n", "LONG_LINE"),
    ):
        session = suite.write("session", f"{'a' * length}{end}".encode())
        name = f"live: a line of {length:,} bytes{'' if end else ' that is cut off'}"
        suite.check(name, 0, lines([f"fault {fault}"]), NOTHING, "live", stdin=session)


def session_of(text, answers):
    """The lines of a session that do what the plan of a job does, and their answers.

    A worker's line has the command that is attempted. If the worker has none left, there is no such line.
    """
    scripts = golden.scripts_of(text)
    asked, wanted = [], []
    for line, answer in zip(golden.plan_of(text), answers):
        if answer == "over":
            continue
        if line.startswith("run "):
            script = scripts[int(line.removeprefix("run "))]
            line = f"{line} {script[0]}"
            if answer not in ("blocked", "history full"):
                script.pop(0)
        asked.append(line)
        wanted.append(answer)
    return asked, wanted


def sizes_of(text):
    """The options for the sizes in the head of a job."""
    for line in text.splitlines()[1:4]:
        name, number = line.split()
        yield f"--{name}"
        yield number
