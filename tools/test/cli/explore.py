"""The explorations of jobs/explore, each with its options (.args) and with another engine's listing (.out).

The other engine also tells of meshes that begin in no interleaving (.unbegun), and gives the verdicts of
jobs/explore/verdicts.
"""

import pathlib
import re
import sys
import typing

from cli import golden
from cli.suite import NOTHING, Beginning, Explained, execute, line, lines

JOBS = pathlib.Path("jobs/explore")
VERDICTS = JOBS / "verdicts"
# Of this job's many outcomes only the last is tried.
LONG_LISTING = "three_pages"

STORE = JOBS / "store_and_copy.job"
ON_STORE = "explore", STORE, "--mesh", "1:0"


class Outcome(typing.NamedTuple):
    """An outcome of a listing: its lines, those of its answers, and the lines of its plan."""

    block: list
    answers: list
    plan: list


def outcomes_in(listing):
    """The outcomes of a listing, in order."""
    found = []
    for block in listing.read_text().split("\noutcome ")[1:]:
        rows = f"outcome {block}".splitlines()
        answers = [row for row in rows if row.startswith("  worker ")]
        plans = [row.removeprefix("  plan: ") for row in rows if row.startswith("  plan: ")]
        found.append(Outcome(rows, answers, [step for plan in plans for step in steps_of(plan)]))
    return found


def steps_of(plan):
    """The lines of a plan as a job file has them: `LINE times N` in a listing is N lines."""
    for row in plan.split(", "):
        step, _, times = row.partition(" times ")
        yield from [step] * int(times or 1)


def cases(suite):
    for job in sorted(JOBS.glob("*.job")):
        exploration(suite, job)
    for job, expected in golden.jobs():
        if golden.is_fault(expected):
            name = f"explore: {job.with_suffix('')}"
            suite.check(name, 2, NOTHING, Explained(expected.read_bytes()), "explore", job, "--mesh", "1:0")
    answers_shown(suite)
    verdicts(suite)
    golden_verdicts(suite)
    progress(suite)
    closed_input(suite)
    tables = execute([sys.executable, "tools/test/interleavings.py", suite.program])
    suite.compare("explore: the tables of docs/INTERLEAVINGS.md", tables, 0, line("192 cells, 0 differ"))


def exploration(suite, job):
    """The listing of a job, its verdict, and its outcomes as jobs."""
    name = f"explore: {job.with_suffix('')}"
    words = ["explore", job, *job.with_suffix(".args").read_text().split()]
    listing = job.with_suffix(".out")
    outcomes = outcomes_in(listing)
    suite.check(name, 0, listing, NOTHING, *words)
    verdict = line(f"as expected: {len(outcomes)} outcomes")
    unbegun = job.with_suffix(".unbegun")
    allowed = ["--allow-no-mesh"] if unbegun.exists() else []
    suite.check(f"{name}, as expected", 0, verdict, NOTHING, *words, "--expect", listing, *allowed)
    if unbegun.exists():
        suite.check(f"{name}, a mesh that never begins", 3, unbegun, NOTHING, *words, "--expect", listing)
    first = len(outcomes) - 1 if job.stem == LONG_LISTING else 0
    for number, outcome in list(enumerate(outcomes))[first:]:
        witness(suite, f"{name}, outcome {number}", job, outcome, [*words, "--witness", number])


def witness(suite, name, job, outcome, words):
    """The job that leads to an outcome: the job with the outcome's plan after its own. A replay gives the answers."""
    wanted = with_plan(job, outcome.plan)
    suite.check(f"{name} as a job", 0, wanted, NOTHING, *words)
    replayed = suite.run("replay", suite.write("witness.job", wanted))
    answers = replayed.rows[len(golden.plan_of(job.read_text())) :]
    by_worker = {}
    for row, answer in zip(outcome.plan, answers):
        if row.startswith("run "):
            by_worker.setdefault(int(row.removeprefix("run ")), []).append(answer)
    listed = [f"  worker {worker}: {' | '.join(by_worker[worker])}" for worker in sorted(by_worker)]
    listed += answers[len(outcome.plan) :]  # A replay has no answer after the plan's.
    suite.compare(f"{name} replayed", replayed._replace(output=lines(listed)), 0, lines(outcome.answers))


def with_plan(job, plan):
    """A job with these lines after its plan."""
    return lines([*job.read_text().splitlines()[:-1], *plan, "end"])


def answers_shown(suite):
    """The job file that `--show` prints of an answer, and its replay."""
    steps = ["step"] * 5
    copying = ["left 6", "protect left 5", "copy left 4", "copy left 3"]
    ended = [*copying, "remap left 2", "unprotect left 1", "done"]
    for shown, plan, answers in (
        ("12:done:before", ["run 0"], ["done"]),
        ("12:done:unprotect 1", ["begin 1 0", *steps, "run 0"], ended),
        ("12:blocked:copy 2", ["begin 1 0", *steps[:3], "run 0"], [*copying, "blocked"]),
        ("15:bytes aa:mesh 0: begun", ["run 0", "begin 1 0", "run 1"], ["done", "left 6", "bytes aa"]),
    ):
        name = f"explore: the answer {shown}"
        wanted = with_plan(STORE, plan)
        suite.check(name, 0, wanted, NOTHING, *ON_STORE, "--show", shown)
        replayed = suite.run("replay", suite.write("shown.job", wanted))
        last = replayed.output.splitlines(keepends=True)[-len(plan) :]
        suite.compare(f"{name}, replayed", replayed._replace(output=b"".join(last)), 0, lines(answers))


def verdicts(suite):
    """Verdicts on lists of outcomes, and on conditions."""
    outcomes = outcomes_in(STORE.with_suffix(".out"))
    first, second = (lines(outcome.answers) for outcome in outcomes)
    other = second.replace(b"bytes 00", b"bytes bb")

    def reported(word, number):
        return lines([f"{word}", *outcomes[number].block])

    def check(name, status, output, *words, **streams):
        suite.check(f"explore: {name}", status, output, NOTHING, *ON_STORE, *words, **streams)

    expected = line("as expected: 2 outcomes")
    both = suite.write("both", second + b"\n" + first)
    check("bare outcomes in another order", 0, expected, "--expect", both)
    check("outcomes from standard input", 0, expected, "--expect", "-", stdin=both)
    cut = suite.write("cut", both.read_bytes()[:-1])
    check("outcomes without the last end", 0, expected, "--expect", cut)

    listed = suite.write("listed", first + b"outcome\n" + other)
    check("another outcome", 3, b"missing:\n" + other + reported("unexpected:", 1), "--expect", listed)
    check("never worker 1: bytes 00", 3, reported("never 1: 1 of 2 outcomes", 1), "--never", "worker 1: bytes 00")
    listed = suite.write("listed", first)
    conditions = "--never", "worker 1: byte 00", "--never", "worker 0: * | bytes aa"
    unseen = b"never 1: 0 of 2 outcomes; no outcome has answer 1 of worker 1\n"
    both = reported("unexpected:", 1) + unseen + reported("never 2: 2 of 2 outcomes", 0)
    check("both at once", 3, both, "--expect", listed, *conditions)


def golden_verdicts(suite):
    """The verdicts of the other engine: each with its words (.args), status and output, and the line of its fault."""
    for words in sorted(VERDICTS.glob("*.args")):
        status = int(words.with_suffix(".status").read_text())
        fault = words.with_suffix(".err")
        errors = Beginning(fault.read_bytes()) if fault.exists() else NOTHING
        name = f"explore: {words.with_suffix('')}"
        suite.check(name, status, words.with_suffix(".out"), errors, "explore", *words.read_text().splitlines())


def progress(suite):
    """Fourteen workers with a store each, after the initial state of the first example: it takes some seconds."""
    made = [row for row in STORE.read_text().splitlines() if re.match("(new|free) ", row)]
    scripts = []
    for worker in range(14):
        scripts += [f"worker {worker}", *(made if worker == 0 else []), f"put 2 {worker} {worker:02x}"]
    head = ["mesh 1", "pages 16", "history 64", "workers 14"]
    job = suite.write("fourteen.job", lines([*head, *scripts, "plan", *["run 0"] * 6, "end"]))
    run = suite.run("explore", job, "--mesh", "1:0", "--states", 131072, "--progress")
    # Standard error has one line or more, and each of them is a count of the states so far.
    counts = re.sub(rb"^states \d+, \d+ a second$", b"COUNT", run.errors, flags=re.MULTILINE)
    wanted = b"COUNT\n" * max(1, counts.count(b"\n"))
    seen = run._replace(output=lines(run.rows[:1]), errors=counts)
    name = "explore: progress of some seconds"
    suite.compare(name, seen, 0, line("interleavings 59281238016000 states 131072"), wanted)


def closed_input(suite):
    """With standard input closed, an exploration ends as a replay that explains itself does."""
    closed = ["sh", "-c", 'exec "$@" <&-', "sh", suite.program]
    replayed = execute([*closed, "replay", "--explain", "/dev/stdin"])
    explored = execute([*closed, "explore", "/dev/stdin", "--mesh", "1:0"])
    name = "explore: a closed input, as a replay tells it"
    suite.compare(name, explored, replayed.status, NOTHING, replayed.errors)
