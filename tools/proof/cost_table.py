#!/usr/bin/env python3
"""Writes the table of docs/PROOF_COST.md: each crate's lines, its mutants, and the seconds of its check.

    tools/proof/cost_table.py [--check] [--seconds FILE]

A line of FILE is a crate and its seconds; by default, and for the other crates, the page keeps its seconds. Lines and
mutants are counted. With --check nothing is written, and the status is 1 if the table is out of date. Run it from the
top of the repository; what it writes is committed.
"""
import argparse
import pathlib
import sys

PAGE = pathlib.Path("docs/PROOF_COST.md")
BEGIN, END = "<!-- crates: lines and mutants written by tools/proof/cost_table.py -->\n", "<!-- end of crates -->\n"
HEAD = """| Crate | Code | Definitions | Proofs | Mutants of `rt ci` | Mutants in groups | Other mutants | Seconds |
|---|---|---|---|---|---|---|---|
"""


def crates():
    """The crates of crates.txt, in its order, which is lowest first."""
    lines = pathlib.Path("crates.txt").read_text().splitlines()
    return [line.split(":")[0] for line in lines if line and not line.startswith("#")]


def lines_of(folder, suffix):
    """The number of lines of a folder's files with this suffix."""
    return sum(len(path.read_text().splitlines()) for path in folder.rglob(f"*{suffix}"))


def row(crate, seconds):
    """A crate's line of the table."""
    folder = pathlib.Path("crates") / crate
    parts = (("src", ".rt"), ("specs", ".antt"), ("proofs", ".antt"))
    lines = [lines_of(folder / name, suffix) for name, suffix in parts]
    mutants = [len(list((folder / name).glob("*.edit"))) for name in ("must-fail", "mutants", "mutants/more")]
    counts = lines + mutants
    return f"| `{crate}` | {' | '.join(map(str, counts))} | {seconds.get(crate, '')} |\n"


def seconds_of(table):
    """The seconds in a table, by crate."""
    rows = (line.strip("| ").split("|") for line in table.splitlines() if line.startswith("| `"))
    return {cells[0].strip(" `"): cells[7].strip() for cells in rows if len(cells) > 7}


def main():
    parser = argparse.ArgumentParser(description="Writes the table of docs/PROOF_COST.md.")
    parser.add_argument("--check", action="store_true", help="write nothing; status 1 if the table is out of date")
    parser.add_argument("--seconds", metavar="FILE", type=pathlib.Path, help="lines of a crate and its seconds")
    options = parser.parse_args()
    page = PAGE.read_text()
    before, rest = page.split(BEGIN)
    table, after = rest.split(END)
    seconds = seconds_of(table)
    if options.seconds:
        seconds |= dict(line.split() for line in options.seconds.read_text().splitlines())
    written = before + BEGIN + "\n" + HEAD + "".join(row(crate, seconds) for crate in crates()) + "\n" + END + after
    if options.check:
        sys.exit(0 if written == page else f"{PAGE}: the table is out of date: run tools/proof/cost_table.py")
    PAGE.write_text(written)


if __name__ == "__main__":
    main()
