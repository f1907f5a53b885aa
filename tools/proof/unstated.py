#!/usr/bin/env python3
"""Writes the table of docs/PROOF.md: for each crate, its public functions whose contract states no result.

    tools/proof/unstated.py [--names]

Such a function has no `ensures`. It is proved safe, and to return, but a body that does something else would be proved
too. Crates that hold only tests or forms are left out. With --names nothing is written, and each function is printed with its
file. Run it from the top of the repository; what it writes is committed.
"""
import collections
import pathlib
import re
import sys

PAGE = pathlib.Path("docs/PROOF.md")
BEGIN, END = "<!-- functions: written by tools/proof/unstated.py -->\n", "<!-- end of functions -->\n"
FUNCTION = re.compile(r"( *)pub (?:const |unsafe )*fn (\w+)")


def functions(path):
    """The public functions of a source file, each with the lines of its signature and its contract."""
    lines = path.read_text().splitlines()
    for number, line in enumerate(lines):
        if found := FUNCTION.match(line):
            yield found[2], head_of(lines[number:], len(found[1]))


def head_of(lines, depth):
    """The lines of a function up to its body, which begins with a line that ends in `{` at the function's own depth."""
    for number, line in enumerate(lines):
        is_own = len(line) - len(line.lstrip(" ")) == depth
        if is_own and line.endswith(("{", "{}")) or line.endswith(";"):
            return lines[: number + 1]
    return lines


def unstated(crate):
    """The public functions of a crate without an `ensures`, each with its file."""
    folder = pathlib.Path("crates") / crate / "src"
    for path in sorted(folder.rglob("*.rt")):
        for name, head in functions(path):
            if not any(re.match(r" *ensures\b", line) for line in head):
                yield path, name


def crates():
    """The crates of crates.txt that hold more than tests and forms, in its order, which is lowest first."""
    lines = pathlib.Path("crates.txt").read_text().splitlines()
    names = (line.split(":")[0] for line in lines if line and not line.startswith("#"))
    return [name for name in names if not name.endswith(("_tests", "_forms"))]


def table():
    """The lines of the table: the crates with the most such functions first."""
    counts = collections.Counter({crate: len(list(unstated(crate))) for crate in crates()})
    yield "| Crate | Public functions without a stated result |"
    yield "|---|---|"
    for crate, count in counts.most_common():
        if count:
            yield f"| [`{crate}`](../crates/{crate}/README.md) | {count} |"


def main():
    if sys.argv[1:] == ["--names"]:
        for crate in crates():
            for path, name in unstated(crate):
                print(f"{path}: {name}")
        return
    if sys.argv[1:]:
        sys.exit(__doc__)
    before, rest = PAGE.read_text().split(BEGIN)
    _, after = rest.split(END)
    PAGE.write_text(before + BEGIN + "\n" + "\n".join(table()) + "\n\n" + END + after)


if __name__ == "__main__":
    main()
