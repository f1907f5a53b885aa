"""Runs whose standard output is a pipe that its reader has closed, and a path that is too long."""

import os
import subprocess

from cli.suite import NOTHING, NULL, Run, line

JOB = "jobs/examples/mesh.job"
HISTORY = "histories/each_command.history"
TOO_LONG = "n" * 5000
QUIET = (
    ("explore", JOB, "--mesh", "1:0"),
    ("draw", JOB),
    ("check", HISTORY),
    ("check", HISTORY, "--order"),
    ("savings", "histories/savings/tar.history"),
)


def cases(suite):
    for words in QUIET:
        suite.compare(f"reasons: a closed pipe, {' '.join(words)}", into_closed_pipe(suite, words), 1)
    replay = into_closed_pipe(suite, ("replay", JOB))
    suite.compare("reasons: a closed pipe, replay", replay, 1, NOTHING, line("write fault"))
    reason = line(f"read fault\n{TOO_LONG[:4096]}: File name too long")
    suite.check("reasons: a path that is too long", 1, NOTHING, reason, "check", TOO_LONG)


def into_closed_pipe(suite, words):
    """Runs the program with a standard output that nobody reads."""
    reader, writer = os.pipe()
    os.close(reader)
    with open(NULL, "rb") as empty, os.fdopen(writer, "wb") as output:
        done = subprocess.run([suite.program, *words], stdin=empty, stdout=output, stderr=subprocess.PIPE)
    return Run(done.returncode, NOTHING, done.stderr)
