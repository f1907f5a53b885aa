"""The histories of replays and of runs by threads: what they should be, and that they are legal."""

import pathlib

from cli import golden, threads
from cli.check import legal
from cli.suite import NOTHING, lines

MESH = pathlib.Path("jobs/examples/mesh.job")


def cases(suite):
    for job, expected in [(MESH, MESH.with_suffix(".out")), *golden.jobs()]:
        if not golden.is_fault(expected):
            replay(suite, job, expected)
    for meshers in (1, 2, 10):
        run_by_threads(suite, meshers)


def replay(suite, job, answers):
    """The history of a replay."""
    name = job.with_suffix("")
    wanted = lines(recorded(job.read_text(), answers.read_text().splitlines()))
    run = suite.check(f"history: {name}", 0, wanted, NOTHING, "replay", job, "--history")
    judge(suite, name, run.output)


def run_by_threads(suite, meshers):
    """The history of threads, whose answers are those that the threads get without it."""
    name = f"threads, {meshers} meshers"
    run = suite.run("threads", threads.JOB, *threads.numbers(), "--meshers", meshers, "--history")
    answers = lines(answered(run.rows[1:]))
    suite.compare(f"history: {name}", run._replace(output=answers), 0, threads.ANSWERS)
    judge(suite, name, run.output)


def judge(suite, name, text):
    """A recorded history is legal."""
    history = suite.write("recorded.history", text)
    suite.check(f"check: the history of {name}", 0, legal(history), NOTHING, "check", "-", stdin=history)


def recorded(job, answers):
    """The history of a job's plan: each command that was answered and recorded, with its answer."""
    scripts = [iter(script) for script in golden.scripts_of(job)]
    yield "history 1"
    for step, answer in zip(golden.plan_of(job), answers):
        if step.startswith("run ") and answer not in ("blocked", "history full", "over"):
            worker = int(step.removeprefix("run "))
            yield f"{worker} {next(scripts[worker], '')} -> {answer}"


def answered(entries):
    """What the workers of a history were answered, as a run by threads prints it: no serials and no addresses."""
    answers = {}
    for entry in entries:
        worker = entry.split(" ")[0]
        answer = entry.split(" -> ")[-1]
        is_short = answer.startswith(("object ", "at "))
        answers.setdefault(worker, []).append(answer.split(" ")[0] if is_short else answer)
    for worker in sorted(answers):
        yield from [f"worker {worker}", *answers[worker]]
    yield f"history {len(entries)}"
