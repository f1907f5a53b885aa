#!/usr/bin/env python3
"""Runs the scripts of jobs/examples/threads.job by threads many times, paced, next to meshers.

    tools/test/threads.py [COUNT [PROGRAM]]

COUNT is the number of runs, by default 200, and PROGRAM by default crates/meshrun/out/meshrun. The numbers of a run are
computed from the number of the run, so two calls of this tool make the same runs. They are --probe 1 to 64, --workers 1
to 16, --meshers 1 to 10, and a seed of its own.

Each run is the run of `check_raced` in tools/test/cli/threads.py: its answers must not depend on the schedule, and they
and the report must show that a page was released while the scripts ran. A run prints two lines, as a case of
tools/test/cli.sh does. The last line counts them. The status is 1 if one failed, and 2 if there is no program.
"""

import os
import pathlib
import sys
import tempfile

from cli import threads
from cli.suite import Suite

TOP = pathlib.Path(__file__).resolve().parents[2]


def numbers_of(run):
    """The numbers of a run."""
    seed = (run * 6364136223846793005 + 1442695040888963407) % 2**64
    return {"probe": run % 64 + 1, "seed": seed, "workers": run // 3 % 16 + 1, "meshers": run // 7 % 10 + 1}


def main():
    words = dict(enumerate(sys.argv[1:]))
    program = pathlib.Path(words.get(1, TOP / "crates/meshrun/out/meshrun")).absolute()
    if not os.access(program, os.X_OK):
        print(f"no program at {program}: run `rt ci`, or `rt run` in crates/meshrun", file=sys.stderr)
        return 2
    os.chdir(TOP)
    with tempfile.TemporaryDirectory() as room:
        suite = Suite(program, pathlib.Path(room))
        for run in range(int(words.get(0, 200))):
            threads.check_raced(suite, f"run {run}", **numbers_of(run))
    print(f"{suite.passed} passed, {suite.failed} failed")
    return 1 if suite.failed else 0


if __name__ == "__main__":
    sys.exit(main())
