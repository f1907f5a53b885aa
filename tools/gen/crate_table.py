#!/usr/bin/env python3
"""Writes the table of the crates in docs/ARCHITECTURE.md, from crates.txt and the first line of each crate's root file.

    tools/gen/crate_table.py [--check]

With --check nothing is written, and the status is 1 if the table is out of date.

A line of the table has a crate, its first line, and the crates that it builds on: those that crates.txt names for it,
without those that another one of them builds on. The root file is lib.rt or main.rt.

The status is also 1 if a crate doesn't begin with one sentence of at most 120 characters. Run it from the top of the
repository after a crate was added, moved or renamed; what it writes is committed.
"""
import pathlib
import sys

PAGE = pathlib.Path("docs/ARCHITECTURE.md")
BEGIN, END = "<!-- crates: written by tools/gen/crate_table.py -->\n", "<!-- end of crates -->\n"
# The longest first line of a crate.
MAX_LINE = 120


def libraries():
    """For each crate of the repository, lowest first, the libraries that crates.txt names."""
    lines = pathlib.Path("crates.txt").read_text().splitlines()
    named = (line.split(":") for line in lines if line and not line.startswith("#"))
    return {crate: names.split() for crate, names in named}


def purpose(crate):
    """What a crate is: the first line of its root file, which is one sentence."""
    folder = pathlib.Path("crates") / crate / "src"
    root = next(path for path in (folder / "lib.rt", folder / "main.rt") if path.exists())
    line = root.read_text().splitlines()[0]
    text = line.removeprefix("//! ")
    if text == line or len(text) > MAX_LINE or not text.endswith("."):
        sys.exit(f"{root}:1: a crate begins with one sentence of at most {MAX_LINE} characters: {line}")
    return text.removesuffix(".")


def below(crate, uses):
    """All crates of the repository that a crate builds on, directly or not."""
    found = set()
    for name in uses[crate]:
        if name in uses:
            found |= {name} | below(name, uses)
    return found


def builds_on(crate, uses):
    """The crates of the repository that a crate names, without those that another one of them builds on."""
    own = [name for name in uses[crate] if name in uses]
    return [name for name in own if not any(name in below(other, uses) for other in own if other != name)]


def row(crate, uses):
    """A crate's line of the table."""
    names = ", ".join(f"`{name}`" for name in builds_on(crate, uses))
    return f"| [`{crate}`](../crates/{crate}/README.md) | {purpose(crate)} | {names} |\n"


def table():
    """The whole table."""
    uses = libraries()
    head = "| Crate | What it is | Builds on |\n|---|---|---|\n"
    return head + "".join(row(crate, uses) for crate in uses)


def main():
    page = PAGE.read_text()
    before, rest = page.split(BEGIN)
    _, after = rest.split(END)
    written = before + BEGIN + "\n" + table() + "\n" + END + after
    if "--check" in sys.argv[1:]:
        sys.exit(0 if written == page else f"{PAGE}: the table is out of date: run tools/gen/crate_table.py")
    PAGE.write_text(written)


if __name__ == "__main__":
    main()
