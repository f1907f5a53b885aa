#!/usr/bin/env python3
"""Writes the tables of docs/OTHERWISE.md: what goes wrong if a list of steps differs from that of the heap's own meshes,
and what does if accesses are made in two moves.

    tools/gen/otherwise.py

It builds the engine of tools/engines/otherwise and explores each list with a client of 0, 1, 2 and 3 commands, until
something is wrong. `cli.sh` compares the program's reports with those of this engine.

The status is 1 if the engine can't be built, or if a list of the table of harmless lists has a fault. Run it from the top of the
repository; what it writes is committed. It needs g++.
"""

import itertools
import pathlib
import subprocess
import sys
import tempfile

DOCUMENT = pathlib.Path("docs/OTHERWISE.md")
BEGIN, END = "<!-- {}: written by tools/gen/otherwise.py -->", "<!-- end of {} -->"
SETTINGS = ("one", "tight", "two_spans", "three_pages")
ONE, TIGHT, TWO_SPANS, THREE_PAGES = (f"jobs/otherwise/setting_{name}.job" for name in SETTINGS)
MOST = 3

# What is different, the list, and the setting.
WRONG = [
    ("no `protect`", "copy remap unprotect release", ONE),
    ("`copy` first", "copy protect remap unprotect release", ONE),
    ("no `copy`", "protect remap unprotect release", ONE),
    ("`copy` behind `remap`", "protect remap copy unprotect release", ONE),
    ("no `remap`", "protect copy unprotect release", ONE),
    ("`unprotect` before `remap`", "protect copy unprotect remap release", ONE),
    ("`unmap` before `remap`", "protect copy unmap remap unprotect release", ONE),
    ("no `unprotect`", "protect copy remap release", ONE),
    ("`unprotect` first", "unprotect protect copy remap release", ONE),
    ("`release` before `remap`", "protect copy release remap unprotect", ONE),
    ("no `release`", "protect copy remap unprotect", ONE),
    ("merged, and the slots looked at before", "look protect merge copy remap unprotect release", ONE),
    ("the groups stay open", "open protect copy remap unprotect release", ONE),
    ("the source stays open", "open:src protect copy remap unprotect release", ONE),
    ("the destination stays open", "open:dst protect copy remap unprotect release", ONE),
    ("the groups are open before the end", "protect copy remap unprotect open release", ONE),
    ("released before `remap`, and the page keeps its bytes", "protect copy release:dirty remap unprotect", ONE),
    ("begun without a check of the slots", "begin:unchecked protect copy remap unprotect release", ONE),
    ("`unprotect` before `remap`, two spans", "protect copy unprotect remap release", TWO_SPANS),
    ("one page of two protected, two spans", "protect:1 copy remap unprotect release", TWO_SPANS),
    ("one page of two remapped, two spans", "protect copy remap:1 unprotect release", TWO_SPANS),
    ("one page of three released", "protect copy remap unprotect release:1", THREE_PAGES),
    ("page by page, `unprotect` before `remap`", "( protect copy:page unprotect remap ) release", THREE_PAGES),
]
RIGHT = [
    ("`release` before `unprotect`", "protect copy remap release unprotect"),
    ("`remap` and `unprotect` in one move", "protect copy remap+unprotect release"),
    ("each phase in one move", "protect:once copy:once remap:once unprotect:once release:once"),
    ("copied in pieces", "protect copy:512 remap unprotect release"),
    ("copied once more before", "copy protect copy remap unprotect release"),
    ("page by page", "( protect copy:page remap unprotect ) release"),
    ("page by page to the end", "( protect copy:page remap+unprotect release )"),
    ("released pages keep their bytes", "protect copy remap unprotect release:dirty"),
    ("the slots looked at once", "look protect copy remap unprotect release"),
    ("merged first", "merge protect copy remap unprotect release"),
    ("hidden instead of protected", "hide copy remap unprotect release"),
    ("hidden, and remapped before the copy", "hide remap copy unprotect release"),
]


# How accesses are made.
TIMINGS = ["--store split", "--store stale", "--load stale", "--free split"]
# Lists with fences.
FENCED = [
    "protect copy remap unprotect release",
    "protect fence copy remap unprotect release",
    "protect copy remap fence unprotect release",
    "protect copy remap unprotect fence release",
    "protect fence copy remap unprotect fence release",
    "hide copy remap unprotect release",
    "hide fence copy remap unprotect release",
    "hide fence remap copy unprotect release",
    "protect copy remap unprotect release fence",
    "protect copy remap unprotect release fence merge",
    "protect fence copy remap unprotect fence release fence",
]


def main():
    with tempfile.TemporaryDirectory() as room:
        engine = pathlib.Path(room) / "reference"
        source = "tools/engines/otherwise/reference.cpp"
        if subprocess.run(["g++", "-O2", "-std=c++20", "-o", engine, source]).returncode:
            return 1
        text = written(DOCUMENT.read_text(), "steps", steps_tables(engine))
        DOCUMENT.write_text(written(text, "moves", moves_tables(engine)))
    return 0


def written(text, name, rows):
    """The text with other rows between the two marks of this name."""
    begin, end = BEGIN.format(name), END.format(name)
    front, rest = text.split(begin + "\n", 1)
    return "\n".join([front + begin, "", *rows, "", end]) + rest.split(end, 1)[1]


def steps_tables(engine):
    """The tables of other lists of steps."""
    rows = ["| Otherwise | List | Commands | What goes wrong | Shortest plan |", "|---|---|---|---|---|"]
    rows += [wrong_row(engine, *row) for row in WRONG]
    rows += ["", f"Nothing is wrong with up to {MOST} commands in `setting_one.job`, `setting_tight.job` (two physical pages),"]
    rows += ["`setting_two_spans.job` and `setting_three_pages.job` with these lists:", "", "| Otherwise | List |", "|---|---|"]
    return rows + [right_row(engine, *row) for row in RIGHT]


def moves_tables(engine):
    """The tables of commands in two moves."""
    rows = ["| Option | Commands | What goes wrong | Shortest plan |", "|---|---|---|---|"]
    for timing in TIMINGS:
        commands, told, plan = least_wrong(engine, FENCED[0], ONE, timing)
        rows.append(f"| `{timing}` | {commands} | {told} | {plan} |")
    rows += ["", "The least number of commands with which something goes wrong in `setting_one.job`, `setting_tight.job` or"]
    rows += [f"`setting_two_spans.job`, or `-` if nothing does with up to {MOST} commands:", ""]
    heads = " | ".join(f"`{timing}`" for timing in TIMINGS)
    rows += [f"| List | {heads} |", "|---|" + "---|" * len(TIMINGS)]
    return rows + [fenced_row(engine, steps) for steps in FENCED]


def report(engine, steps, job, commands, timing=""):
    """The status of a report, and its lines on what is wrong: those behind the number of states, without those on what
    never happens.
    """
    words = [engine, job, "--mesh", "1:0", "--steps", steps, "--any", str(commands), "--states", "10000000"]
    done = subprocess.run([*words, *timing.split()], capture_output=True, text=True)
    _, _, behind = done.stdout.partition("\nstates ")
    rows = behind.splitlines()[1:]
    return done.returncode, [row for row in rows if not row.startswith("no interleaving ")]


def least_wrong(engine, steps, job, timing=""):
    """The fewest commands with which a list is wrong, what goes wrong, and its plan: a wrong answer, or else another
    fault. Nothing if nothing goes wrong.
    """
    reports = [report(engine, steps, job, commands, timing) for commands in range(MOST + 1)]
    wrong = [commands for commands, (status, _) in enumerate(reports) if status == 3]
    answered = [commands for commands in wrong if reports[commands][1][0].startswith("wrong answer: ")]
    if not wrong:
        return None
    commands = (answered or wrong)[0]
    head, _, *rest = reports[commands][1]
    plan = [shown(row.strip()) for row in itertools.takewhile(lambda row: row[0] == " ", rest)]
    return commands, head.removeprefix("wrong answer: client: "), "; ".join(plan)


def wrong_row(engine, otherwise, steps, job):
    """The row of a list with a fault."""
    found = least_wrong(engine, steps, job)
    if not found:
        sys.exit(f"{steps}: nothing is wrong")
    commands, told, plan = found
    return f"| {otherwise} | `{steps}` | {commands} | {told} | {plan} |"


def fenced_row(engine, steps):
    """The row of a list with fences: for each way to make accesses, the fewest commands with which it is wrong."""
    cells = []
    for timing in TIMINGS:
        found = [least_wrong(engine, steps, job, timing) for job in (ONE, TIGHT, TWO_SPANS)]
        cells.append(str(min((row[0] for row in found if row), default="-")))
    return f"| `{steps}` | {' | '.join(cells)} |"


def shown(row):
    """A line of a plan in the table: a command is bold."""
    command = row.removeprefix("client: ")
    return row.removeprefix("mesh 1:0 ") if command == row else f"**{command}**"


def right_row(engine, otherwise, steps):
    """The row of a list without a fault."""
    for job in (ONE, TIGHT, TWO_SPANS, THREE_PAGES):
        status, lines = report(engine, steps, job, MOST)
        if status != 0:
            sys.exit(f"{steps}: {lines}")
    return f"| {otherwise} | `{steps}` |"


if __name__ == "__main__":
    sys.exit(main())
