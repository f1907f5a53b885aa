#!/usr/bin/env python3
"""Runs the built program as a user does, and compares the status and the output of each run with what they should be.

    tools/test/cli.sh [PROGRAM]

PROGRAM is crates/meshrun/out/meshrun by default: `rt ci` leaves it there, and so does `rt run` in crates/meshrun.

Each case prints a line, `ok: NAME` or `FAILED: NAME: what differs`; the last line counts them. The status is 1 if one
failed, 2 if there is no program. A case is a line of a table (tools/test/cases), or a call in the table's module
(tools/test/cli) if it needs other files or what another run printed.
"""

import os
import pathlib
import sys
import tempfile

from cli import (
    accesses,
    check,
    command_line,
    draw,
    explore,
    histories,
    live,
    otherwise,
    overlaps,
    pages,
    plans,
    reasons,
    record,
    replay,
    savings,
    tables,
    threads,
)
from cli.suite import Suite

TOP = pathlib.Path(__file__).resolve().parents[2]
# In this order: `plans` runs the engine that `otherwise` makes, and `savings` reads histories that `record` makes.
# `None`: all cases are in the table.
TESTED = {
    "replay": replay,
    "threads": threads,
    "draw": draw,
    "explore": explore,
    "otherwise": otherwise,
    "plans": plans,
    "live": live,
    "check": check,
    "overlaps": overlaps,
    "accesses": accesses,
    "histories": histories,
    "reasons": reasons,
    "record": record,
    "savings": savings,
    "command_line": command_line,
    "pages": pages,
}


def main():
    program = pathlib.Path(os.path.abspath(sys.argv[1])) if sys.argv[1:] else TOP / "crates/meshrun/out/meshrun"
    if not os.access(program, os.X_OK):
        print(f"there is no program at {program}: run `rt ci`, or `rt run` in crates/meshrun", file=sys.stderr)
        return 2
    os.chdir(TOP)
    with tempfile.TemporaryDirectory() as room:
        suite = Suite(program, pathlib.Path(room))
        for name, module in TESTED.items():
            table = TOP / f"tools/test/cases/{name}.txt"
            if table.exists():
                tables.run(suite, table)
            if module:
                module.cases(suite)
    print(f"{suite.passed} passed, {suite.failed} failed")
    return 1 if suite.failed else 0


if __name__ == "__main__":
    sys.exit(main())
