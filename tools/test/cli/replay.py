"""The golden files, replayed."""

import pathlib

from cli import golden
from cli.suite import NOTHING


def cases(suite):
    for job, expected in golden.jobs():
        name = job.with_suffix("")
        if golden.is_fault(expected):
            suite.check(name, 2, NOTHING, expected, "replay", job)
        else:
            suite.check(name, 0, expected, NOTHING, "replay", job)
    for expected in sorted(pathlib.Path("jobs").rglob("*.echo")):
        suite.check(f"{expected}", 0, expected, NOTHING, "replay", expected.with_suffix(".job"), "--echo")
    for job, expected in golden.jobs():
        if not golden.is_fault(expected):
            echo(suite, job, expected)


def echo(suite, job, expected):
    """Checks that the echo of a job has each line of its plan, and behind it the answer."""
    run = suite.run("replay", job, "--echo")
    echoed = [row.partition(" -> ") for row in run.rows]
    answers = "".join(f"{answer}\n" for _, _, answer in echoed)
    suite.compare(f"{job.with_suffix('')}: the answers of its echo", run._replace(output=answers.encode()), 0, expected)
    planned = golden.plan_of(job.read_text())
    wrong = [front for (front, _, _), line in zip(echoed, planned) if not f"{front} ".startswith(f"{line} ")]
    suite.report(f"{job.with_suffix('')}: the lines of its echo", [f"{front!r} is none" for front in wrong[:1]])
